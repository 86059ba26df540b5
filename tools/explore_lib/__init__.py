"""Explores a space of machines by `fast sweep`: rows as CSV, and pictures.

`command` reads the words and calls `exploring`, which goes through the steps: the input
(`space_file`, `formula`), the machines (`space`, `machine_file`), what is finished (`journal`),
the batches (`batches`, `answers`) and who runs them (`workers`), the table (`table`) and the
pictures (`front`, `pictures`).
"""
