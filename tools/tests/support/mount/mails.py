"""A session that makes an image of mails with words as `tools/sync` gives them, the same each time. Only for tests."""
import random

HEADS = (b"in:", b"date:", b"list:", b"who:", b"about:")
BOXES = (b"in:Inbox", b"in:Work", b"in:Lists", b"in:Archive")
# The limits of an image that has room for 1,500 of them.
LIMITS = ("2048", "2048", "4096")


def session(count: int) -> bytes:
    """The lines that declare the words and add N mails."""
    chance = random.Random(41)
    parts = [b"mkdir %b\n" % word for word in (*HEADS, b"answered")]
    for number in range(count):
        people = [b"p%d" % chance.randrange(60) for _ in range(chance.randrange(2, 5))]
        subject = [b"s%d" % int(chance.paretovariate(0.6) % 300) for _ in range(chance.randrange(2, 6))]
        box = chance.choice(BOXES)
        words = dict.fromkeys([box, b"date:20%02d-%02d" % (chance.randrange(20, 25), chance.randrange(1, 13)),
                               *[b"list:dev"] * (box == b"in:Lists"), *[b"answered"] * (chance.random() < 0.3),
                               *(b"who:" + one for one in people), *(b"about:" + word for word in subject)])
        mail = b"From: %b@example.org\nTo: %b@example.org\nSubject: %b\n\n" % (people[0], people[1], b" ".join(subject))
        parts.append(b"add m%04d.eml %d %b\n%b\n" % (number, len(mail), b" ".join(words), mail))
    return b"".join(parts)
