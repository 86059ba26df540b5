"""Shows what each cycle of a run was spent on.

`tools/pipeline` reads a trace (`trace`) and the functions of its image (`elf`), and writes them
with the files of `page/` as one HTML page (`page`). Its test uses the page in a browser
(`browser`).

`tools/profile` reads rows by address (`rows`), groups them by function (`functions`), and writes
tables (`tables`, `annotated`), a callgrind file (`callgrind`) and bars (`stacks`). Debian's
binutils give instructions and their source lines (`binutils`).
"""
