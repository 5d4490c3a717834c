"""Random inputs of the program: damaged problems and proofs, texts of its tokens in any order, bytes, and words."""
import hostile

BEGINNINGS = [(words, text) for _, words, text in hostile.SMALL] + [(hostile.ALONE, hostile.GROUP), (hostile.PLAIN, hostile.STEERED),
                                                                    (["model", "--size", "1"], hostile.STEERED)]
TOKENS = [it.encode() for it in """list ( ) ( ) . , | - = != : % \n $F set clear assign usable sos passive demodulators
end_of_list proof end_of_proof binary_res hyper_res para_from max_weight max_given pick_given_ratio input resolve instance merge flip
para left right 0 1 2 3 10 9999999999 99999999999 p q f a b x y x0 x1 x65535 mark run end_of_run f(x) p(x). -p(f(x)). a=b.""".split()]
WORDS = """check prove model bench --finders --size --nodes --candidates --workers --upto --finders=0 --size=2 0 1 2 3 8 9 64 00000000001
-1 two = --=1 --nodes=100 --candidates=3""".split()

# words that end soon whatever they are given; a search takes as long as it takes
COMMANDS = [["check"], hostile.PLAIN, ["prove", "--finders", "0", "--candidates", "3", "--nodes", "100"],
            ["model", "--nodes", "100"], ["model", "--size", "3", "--nodes", "10", "--workers", "2"],
            ["model", "--size", "1", "--upto", "3", "--nodes", "10"]]
SOON = b"assign(max_given,20). assign(max_kept,60).\n"


def damaged(chance, text):
    """The text with a few bytes or pieces changed, left out, doubled or moved."""
    out = bytearray(text)
    for _ in range(chance.choice((1, 1, 1, 2, 3, 8))):
        at, to = sorted(chance.randrange(len(out) + 1) for _ in range(2))
        kind = chance.randrange(6)
        if kind == 0 and out:
            out[at % len(out)] = chance.randrange(256)
        elif kind == 1:
            out[at:at] = chance.choice(TOKENS)
        elif kind == 2:
            del out[at : min(to, at + chance.randrange(1, 12))]
        elif kind == 3:
            out[at:at] = out[at : min(to, at + 40)]
        elif kind == 4:
            out[at:at] = bytes([chance.choice(b"().,|-=!:%$ \n0129axpq\x00\xff")])
        else:
            out[at : min(to, at + 4)] = chance.choice(TOKENS)
    return bytes(out)


def made(chance):
    """The words and the text of one random run."""
    kind = chance.randrange(10)
    if kind < 5:
        words, text = chance.choice(BEGINNINGS)
        return words, SOON + damaged(chance, text)
    if kind < 7:
        return chance.choice(COMMANDS), SOON + b" ".join(chance.choice(TOKENS) for _ in range(chance.randrange(60)))
    if kind < 8:
        return chance.choice(COMMANDS), bytes(chance.randrange(256) for _ in range(chance.randrange(200)))
    words = [chance.choice(WORDS) for _ in range(chance.randrange(6))]
    return [it for it in words if it != "bench"] if kind < 9 else words, b"p(a)."
