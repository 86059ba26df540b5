"""Drawn command lines, of which many are none."""

from .draws import Draws

FORMS = [
    ["func", "p.elf"],
    ["run", "p.elf", "m.toml"],
    ["sched", "p.elf", "m.toml", "plan"],
    ["inorder", "p.elf", "m.toml"],
    ["inorder", "p.elf", "m.toml", "plan"],
    ["back", "p.elf", "script"],
    ["sweep", "p.elf", "m.toml"],
    ["stack", "p.elf", "m.toml"],
    ["profile", "p.elf", "m.toml"],
    ["trace", "p.elf", "m.toml"],
    ["count", "p.elf"],
    ["gdb", "p.elf"],
]
NO_COMMANDS = ["", "--help", "Func", "-", "--", "help", "-h"]
POOL = [
    *("p.elf", "m.toml", "m2.toml", "plan", "input", "script", "nothere", ".", "-", "--", ""),
    "a=b",
    *("--ring", "--cycles", "--input", "--output", "--history", "--threads", "--cycle", "-r"),
    *("--ring=8", "--ring=0", "--ring=65537", "--ring=8=9", "--cycles=5", "--cycles=0", "--cyc=3"),
    *("--output=0", "--output=", "--output=16777216", "--output=16777217", "--threads=1"),
    *("--threads=3", "--input=", "--input=input", "--input=-", "--history=2", "--history=1048577"),
    *("8", "08", "+8", "-8", "00000000000000000008", "000000000000000000008", "1099511627776"),
    *("1099511627777", "18446744073709551615", "18446744073709551616", "--help", "-h", "--version"),
    *("--pipeline", "--pipeline=window", "--pipeline=inorder", "--pipeline=Window", "--pipeline="),
    *("--machine", "--machine=m2.toml", "--machine=nothere", "--machine=", "--exit-code"),
    *("--from", "--to", "--from=5", "--to=9", "--to=1099511627777"),
    *("--exit-code", "--exit-code", "--exit-code=", "--exit-code=1", "--exit"),
]
PAIRS = [
    *(["--cycles", "100"], ["--output", "3"], ["--input", "input"], ["--ring", "4"]),
    *(["--history", "9"], ["--cycles", "-"], ["--input", "--"], ["--input", "-x"]),
    *(["--threads", "1"], ["--threads", "0"], ["--pipeline", "inorder"], ["--pipeline", "lane"]),
    *(["--machine", "m2.toml"], ["--machine", "bad.toml"], ["--machine", "--"]),
    *(["--exit-code", "--exit-code"], ["--exit-code", "1"]),
]
SEEDS = ["-1", "+1", "", "--", "x", "18446744073709551616", "000000000000000000001", "--ring"]


def draw_words(draws: Draws) -> list[str]:
    """The words of a command line; a run of one is short."""
    if draws.chance(0.08):
        # (A whole soak would take its time, so there is a word too many.)
        more = draws.choice([["1", "2"], ["1", "2"], ["3", "--", "x"]])
        return ["soak", draws.choice(SEEDS), *more]
    command, *words = draws.choice(FORMS)
    for _ in range(draws.randrange(3)):
        words.insert(draws.randrange(len(words) + 1), draws.choice(POOL))
    if draws.chance(0.3):
        words[draws.randrange(len(words))] = draws.choice(POOL)
    if draws.chance(0.3):
        place = draws.randrange(len(words) + 1)
        words[place:place] = draws.choice(PAIRS)
    if not any(word.startswith("--cycles") for word in words) and draws.chance(0.9):
        words.insert(0, "--cycles=300")
    return [draws.choice(NO_COMMANDS) if draws.chance(0.05) else command, *words]
