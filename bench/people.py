#!/usr/bin/env python3
"""LDIF of a made-up company, the same bytes for the same arguments: people.py COUNT [SEED] > people.ldif

The suffix, an OU of people, eight OUs below it, and COUNT people spread over these: inetOrgPerson entries of 15 to 22
attribute lines (about 630 bytes), of which some values are not ASCII (base64), some lines are folded, 1 of 12 has the
hash of a password and 1 of 40 a long description. It goes with the dir.conf beside it. Parents stand before children.
"""
import base64
import random
import sys

SUFFIX = "dc=example,dc=com"
FIRST = """James Mary John Patricia Robert Jennifer Michael Linda William Elizabeth David Barbara Richard Susan Joseph
Jessica Thomas Sarah Charles Karen Anna Björn Zoë François Müller Søren Jürgen Renée Łukasz Noël Inés Chloé Dvořák
Olga Priya Wei Yuki Amina Fatima Kofi Ngozi Mateo Lucía Santiago Hannah Emma Olivia Liam Noah Aiden Maya Ibrahim""".split()
LAST = """Smith Johnson Williams Brown Jones Garcia Miller Davis Rodriguez Martinez Hernandez Lopez Gonzalez Wilson
Anderson Thomas Taylor Moore Jackson Martin Lee Perez Thompson White Harris Sanchez Clark Ramirez Lewis Robinson
Walker Young Allen King Wright Scott Torres Nguyen Hill Flores Green Adams Nelson Baker Hall Rivera Campbell Mitchell
Carter Roberts O'Brien Müller Schröder Jørgensen Åkesson Castañeda Kowalski Novák Dubois Rossi Ferrari Silva""".split()
SYLLABLES = """ba be bi bo bu da de di do du ka ke ki ko ku la le li lo lu ma me mi mo mu na ne ni no nu ra re ri ro ru
sa se si so su ta te ti to tu va ve vi vo vu""".split()
TITLES = ["Engineer", "Senior Engineer", "Accountant", "Manager", "Director, Research", "Analyst", "Technician",
          "Professor", "Research Assistant", "Clerk", "Consultant", "Nurse", "Editor", "Buyer", "Architect"]
UNITS = ["Engineering", "Sales", "Finance", "Research", "Operations", "Support", "Human Resources", "Legal"]
CITIES = [("Ann Arbor", "MI", "48103"), ("Springfield", "IL", "62701"), ("Zürich", "ZH", "80010"),
          ("Lyon", "RA", "69001"), ("Leeds", "WYK", "11000"), ("Austin", "TX", "78701"), ("Kraków", "MP", "30001"),
          ("Osaka", "OS", "53000")]
WORDS = """the quick project leads several groups and keeps records of directory entries with care while the office moves
to another floor each spring nobody asked why reports are late on tuesdays in the north wing""".split()
LETTERS = str.maketrans("äöüßøåæëéèçñíóúářłńűôîïêãõžšč", "aousoaaeeecniouarlnuoiieaozsc")


def folded(line):
    line = line.encode()
    pieces, rest = [line[:76]], line[76:]
    while rest:
        pieces.append(b" " + rest[:75])
        rest = rest[75:]
    return b"\n".join(pieces) + b"\n"


def line(name, value):
    data = value.encode()
    plain = all(1 <= c <= 127 and c not in (10, 13) for c in data) and data[0] not in b" :<" and data[-1:] != b" "
    if plain:
        return folded(f"{name}: {value}")
    return folded(f"{name}:: {base64.b64encode(data).decode()}")


def entry(dn, attributes):
    return line("dn", dn) + b"".join(line(name, value) for name, value in attributes) + b"\n"


def ascii_letters(name):
    return "".join(c for c in name.lower().translate(LETTERS) if c.isascii() and c.isalnum())


def last_name(r):
    if r.random() < .6:
        return r.choice(LAST)
    return "".join(r.choice(SYLLABLES) for _ in range(r.randint(2, 4))).capitalize()


def description(r):
    count = 0 if r.random() < .5 else r.randint(5, 30) if r.random() < .95 else 250
    return " ".join(r.choice(WORDS) for _ in range(count)).capitalize()


def person(r, number, names):
    first, last = r.choice(FIRST), last_name(r)
    uid = f"{ascii_letters(first)[:1]}{ascii_letters(last)[:8]}{number}"
    city, state, code = r.choice(CITIES)
    dn = f"uid={uid},ou={r.choice(UNITS)},ou=People,{SUFFIX}"
    cn = f"{first} {last}" + (f" {number}" if r.random() < .2 else "")
    attributes = [("objectClass", name) for name in ("top", "person", "organizationalPerson", "inetOrgPerson")]
    attributes.append(("cn", cn))
    if r.random() < .3:
        attributes.append(("cn", f"{first[0]}. {last} {uid}"))
    attributes += [
        ("sn", last), ("givenName", first), ("uid", uid), ("mail", f"{uid}@mail.example.com"),
        ("telephoneNumber", f"+1 {r.randint(200, 989)} 555 {r.randint(0, 9999):04d}"),
        ("employeeNumber", str(100000 + number)), ("employeeType", r.choice(["staff", "contract", "student"])),
        ("title", r.choice(TITLES)), ("l", city), ("st", state), ("postalCode", code),
        ("roomNumber", f"{r.randint(1, 9)}{r.choice('ABCD')}-{r.randint(100, 999)}"),
        ("postalAddress", f"{first} {last}$ {r.randint(1, 9999)} Main Street$ {city}, {state} {code}")]
    if r.random() < .5:
        attributes.append(("mobile", f"+44 7{r.randint(100, 999)} {r.randint(100000, 999999)}"))
    if names and r.random() < .3:
        attributes.append(("manager", r.choice(names)))
    if r.random() < .08:
        attributes.append(("userPassword", "{SSHA}" + base64.b64encode(r.randbytes(24)).decode()))
    words = description(r)
    if words:
        attributes.append(("description", words))
    names.append(dn)
    return entry(dn, attributes)


def main():
    count = int(sys.argv[1])
    r = random.Random(sys.argv[2] if len(sys.argv) > 2 else "1")
    out = sys.stdout.buffer
    out.write(entry(SUFFIX, [("objectClass", "top"), ("objectClass", "dcObject"), ("objectClass", "organization"),
                             ("o", "Example, Inc."), ("dc", "example")]))
    out.write(entry(f"ou=People,{SUFFIX}", [("objectClass", "organizationalUnit"), ("ou", "People")]))
    for unit in UNITS:
        out.write(entry(f"ou={unit},ou=People,{SUFFIX}", [("objectClass", "organizationalUnit"), ("ou", unit)]))
    names = []
    for number in range(count):
        out.write(person(r, number, names))


main()
