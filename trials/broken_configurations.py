"""Where a configuration breaks its rule, as the program says it.

    python3 trials/broken_configurations.py PROGRAM

In an empty folder. It prints what is said of each, and counts those of which something else is said.
"""
import subprocess

from common import words

PLAIN = """[domain]
name = "CORP"
sid = "S-1-5-21-1-2-3"
[[listener]]
name = "a"
address = "tcp:127.0.0.1:4156"
token = ["S-1-1-0"]
"""

FAULTS = [
    ('name = "CORP"', "name = CORP", "rule 0 at line 2: "),
    ('token = ["S-1-1-0"]', 'token = ["S-1-1-0"]\ntoken = []', "rule 0 at line 8: "),
    ("[domain]", "port = 1\n[domain]", 'rule 1 at "port": '),
    ("[[listener]]", "[listener]", 'rule 1 at "listener": '),
    ('sid = "S-1-5-21-1-2-3"\n', "", 'rule 1 at "sid" in [domain]: '),
    ("token", "tokens", 'rule 1 at "tokens" in [[listener]] 0 (counted from 0): '),
    ("[domain]", "[limits]\nmax_call = 1\n[domain]", 'rule 1 at "max_call" in [limits]: '),
    ("[domain]", '[descriptor.users]\nowner = "S-1-1-0"\n[domain]', 'rule 1 at "users" in [descriptor]: '),
    ("[domain]", "[descriptor.user]\naces = []\n[domain]", 'rule 1 at "owner" in [descriptor.user]: '),
    ('"CORP"', '"BUILTIN"', 'rule 2 at "name" in [domain]: '),
    ("S-1-5-21-1-2-3", "S-1-5-32", 'rule 3 at "sid" in [domain]: '),
    ('"a"', '"A"', 'rule 4 at "name" in [[listener]] 0 (counted from 0): '),
    ("4156", "65536", 'rule 5 at "address" in [[listener]] 0 (counted from 0): '),
    ("[[listener]]", '[[listener]]\nname = "b"\naddress = "unix:s"\ntoken = ["S-1-1-0"]\n[[listener]]\nworkers = 65',
     'rule 7 at "workers" in [[listener]] 1 (counted from 0): '),
    ('"S-1-1-0"', '"Everyone"', 'rule 6 at "token" in [[listener]] 0 (counted from 0): '),
    ("[domain]", '[descriptor.user]\nowner = "x"\n[domain]', 'rule 8 at "owner" in [descriptor.user]: '),
    ("[domain]", '[descriptor.alias]\nowner = "S-1-1-0"\naces = ["allow"]\n[domain]',
     'rule 9 at "aces" in [descriptor.alias]: '),
    ("[domain]", "[limits]\nmax_periods = 0\n[domain]", 'rule 10 at "max_periods" in [limits]: '),
]


def main():
    (program,) = words("PROGRAM")
    differ = 0
    for part, text, wanted in FAULTS:
        with open("bad.toml", "w") as file:
            file.write(PLAIN.replace(part, text, 1))
        done = subprocess.run([program, "serve", "bad.toml", ""], capture_output=True, text=True, timeout=60)
        lines = [line for line in done.stderr.splitlines() if "bad.toml breaks" in line]
        if done.returncode != 3 or len(lines) != 1 or "bad.toml breaks " + wanted not in lines[0]:
            differ += 1
            print("DIFFERS:", repr(text), "said", done.returncode, lines)
        else:
            print(lines[0])
    print(len(FAULTS), "configurations,", differ, "that differ")


main()
