"""What the tools share.

How they end (`faults`), how they write files (`files`), what a cycle is spent on (`causes`), how
pictures are made (`plots`), and bars of cycles by cause (`bars`).
"""
