#!/usr/bin/env python3
"""LDIF of changes, the same bytes for the same arguments, all of which apply.

changes.py mixed COUNT < people.ldif       modify, add, delete and rename of people (people.py), in turn at random
changes.py moves COUNT                     a unit of 12,500 people, of 100,000, moves below another unit and back again, so many times
changes.py leaves COUNT < people.ldif      renames of so many people
changes.py group                           a group of 100,000 members, as content
changes.py add|delete|replace              50,000 of its members added, deleted or replaced, in one record
changes.py blocks                          5,000 of them, added and deleted in turn, one to a block of one record
changes.py records                         1,000 of them, added and deleted in turn, one to a record
"""
import random
import sys

SUFFIX = "dc=example,dc=com"
UNITS = ["Engineering", "Sales", "Finance", "Research", "Operations", "Support", "Human Resources", "Legal"]
GROUP = f"cn=everybody,{SUFFIX}"
MEMBERS = 100_000


def people(text):
    """The names of people in a text of content records."""
    names = []
    for line in text.replace("\n ", "").split("\n"):
        if line.startswith("dn: uid="):
            names.append(line[4:])
    return names


def modify(r, dn, number):
    block = r.choice([
        f"replace: title\ntitle: Keeper of {number} records",
        f"add: description\ndescription: note {number}",
        "delete: roomNumber",
        f"delete: employeeType\n-\nadd: employeeType\nemployeeType: type {number}\n-\nreplace: l\nl: Town {number}\nl: Village {number}",
    ])
    return f"dn: {dn}\nchangetype: modify\n{block}\n-\n\n"


def add(r, number):
    dn = f"uid=new{number},ou={r.choice(UNITS)},ou=People,{SUFFIX}"
    return (f"dn: {dn}\nchangetype: add\nobjectClass: top\nobjectClass: person\nobjectClass: organizationalPerson\n"
            f"objectClass: inetOrgPerson\nuid: new{number}\ncn: New Person {number}\nsn: Person\ntitle: Clerk\n"
            f"mail: new{number}@mail.example.com\ntelephoneNumber: +1 555 {number}\n\n")


def rename(r, dn, number):
    above = f"newsuperior: ou={r.choice(UNITS)},ou=People,{SUFFIX}\n" if r.random() < .5 else ""
    return f"dn: {dn}\nchangetype: modrdn\nnewrdn: uid=moved{number}\ndeleteoldrdn: {r.randint(0, 1)}\n{above}\n"


def mixed(count, text):
    r = random.Random(count)
    names = people(text)
    r.shuffle(names)
    # each person is changed once; half of the changes are modifies
    for number in range(count):
        kind = r.random()
        if kind < .2 or not names:
            yield add(r, number)
            continue
        dn = names.pop()
        if kind < .7:
            yield modify(r, dn, number)
        elif kind < .85:
            yield f"dn: {dn}\nchangetype: delete\n\n"
        else:
            yield rename(r, dn, number)


def moves(count):
    inside, outside = f"ou=Sales,ou=People,{SUFFIX}", f"ou=People,{SUFFIX}"
    for number in range(count):
        above, to = (outside, inside) if number % 2 == 0 else (inside, outside)
        yield f"dn: ou=Engineering,{above}\nchangetype: modrdn\nnewrdn: ou=Engineering\ndeleteoldrdn: 0\nnewsuperior: {to}\n\n"


def leaves(count, text):
    r = random.Random(count)
    names = people(text)
    r.shuffle(names)
    for number, dn in zip(range(count), names):
        yield rename(r, dn, number)


def member(number):
    return f"member: uid=user{number},ou=People,{SUFFIX}\n"


def group():
    yield f"dn: {SUFFIX}\nobjectClass: top\nobjectClass: dcObject\nobjectClass: organization\no: Example\ndc: example\n\n"
    yield f"dn: {GROUP}\nobjectClass: groupOfNames\ncn: everybody\n"
    for number in range(MEMBERS):
        yield member(number)
    yield "\n"


def in_one_block(kind):
    numbers = range(MEMBERS, MEMBERS + 50_000) if kind == "add" else range(0, MEMBERS, 2)
    yield f"dn: {GROUP}\nchangetype: modify\n{kind}: member\n"
    for number in numbers:
        yield member(number)
    yield "-\n\n"


def blocks():
    yield f"dn: {GROUP}\nchangetype: modify\n"
    for number in range(2_500):
        yield f"add: member\n{member(MEMBERS + number)}-\ndelete: member\n{member(40 * number)}-\n"
    yield "\n"


def records():
    for number in range(500):
        yield f"dn: {GROUP}\nchangetype: modify\nadd: member\n{member(MEMBERS + number)}-\n\n"
        yield f"dn: {GROUP}\nchangetype: modify\ndelete: member\n{member(200 * number)}-\n\n"


def main(kind, count="0"):
    if kind == "mixed":
        texts = mixed(int(count), sys.stdin.read())
    elif kind == "leaves":
        texts = leaves(int(count), sys.stdin.read())
    elif kind == "moves":
        texts = moves(int(count))
    elif kind in ("add", "delete", "replace"):
        texts = in_one_block(kind)
    else:
        texts = {"group": group, "blocks": blocks, "records": records}[kind]()
    sys.stdout.writelines(texts)


main(*sys.argv[1:])
