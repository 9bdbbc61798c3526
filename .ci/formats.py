"""Runs over setups, seeds, frames, scripts and captures at the limits of their formats, for .ci/texts.

The rows were spelled by hand, and the model makes the frames. Each case is as in .ci/texts.
"""
from model.files import CAPTURE, SCRIPT, Arrives, Discloses, Sends, Takes, file_text
from model.frames import DataFrame, KeysFrame, KeyRow, TagRow, frame_text
from model.histories import Arrival, Ended, Taken
from model.senders import key_of, sending, stream_of
from model.setups import ChainRow, Setup, seeds_text, setup_text
from model.clock import Times
from model.traces import trace_text
from running import seeds
from streams import ONE, TWO, Stream, refused, report, setup_of

BASE = setup_of((2, 0, ONE), (5, 0, TWO))
# A setup of version 2, with the greatest numbers that there may be.
WIDE = setup_text(Setup(2, 0xa7, Times(2 ** 64 - 1, 3_600_000_000, 2 ** 20), 32,
                        [ChainRow(2, 0, ONE), ChainRow(3, 0, TWO), ChainRow(4096, 2 ** 20, TWO)]))
NO_RECORDS = {"none": CAPTURE.head}

# A part of a text, what stands in its place, and why it is refused then; None where it isn't. Where a line has two faults, the kind
# that comes first is told.
OF_BASE = [
    (b"tesla 1", b"tesla 2", "6 BadLine"),
    (b"tesla 1", b"tesla 3", "1 BadLine"),
    (b"tesla 1\n", b"tesla 1\r\n", "1 BadLine"),
    (b"stream 0", b"Stream 0", "2 BadLine"),
    (b"stream 0", b"stream 0 0", "2 BadLine"),
    (b"stream 0", b"stream 00", "2 BadHex"),
    (b"a7", b"A7", "2 BadHex"),
    (b"start 1", b"start  1", "3 BadLine"),
    (b"start 1", b"start 01", "3 BadNumber"),
    (b"start 1", b"start +1", "3 BadNumber"),
    (b"start 1000000", b"start 18446744073709551616", "3 BadNumber"),
    (b"start 1000000", b"start 18446744073709551615", None),
    (b"interval 100000", b"interval 01000", "4 BadNumber"),
    (b"interval 100000", b"interval 999", "4 LimitPassed"),
    (b"interval 100000", b"interval 1000", None),
    (b"interval 100000", b"interval 3600000000", None),
    (b"interval 100000", b"interval 3600000001", "4 LimitPassed"),
    (b"last 8", b"last 0", "5 LimitPassed"),
    (b"last 8", b"last 1048576", None),
    (b"last 8", b"last 1048577", "5 LimitPassed"),
    (b"last 8\n", b"last 8 \n", "5 BadLine"),
    (b"last 8\n", b"last 8", "5 BadLine"),
    (b"chain 2", b"chains 2", "6 BadLine"),
    (b"chain 2 0", b"chain 2", "6 BadLine"),
    (b"chain 2 0", b"chain 02 0 0", "6 BadLine"),
    (b"chain 2 0", b"chain 0 00", "6 BadNumber"),
    (b"chain 2 0", b"chain 2 18446744073709551616", "6 BadNumber"),
    (b"chain 2 0 d", b"chain 0 0 D", "6 LimitPassed"),
    (b"chain 2 0 d", b"chain 2 9 D", "6 BadHex"),
    (b"chain 2 0 d", b"chain 2 0 dd", "6 BadHex"),
    (b"chain 2 0", b"chain 2 9", "6 IndexPastLast"),
    (b"chain 2 0", b"chain 2 8", None),
    (b"chain 2 0", b"chain 5 0", "7 DelaysNotRising"),
    (b"chain 5 0 9", b"chain 1 0 E", "7 BadHex"),
    (b"chain 5 0", b"chain 2 9", "7 DelaysNotRising"),
    (b"chain 5 0", b"chain 4096 0", None),
    (b"chain 5 0", b"chain 4097 0", "7 LimitPassed"),
    (b"ced\n", b"ced", "7 BadLine"),
    (b"ced\n", b"ced\n\n", "8 BadLine"),
]
OF_WIDE = [
    (b"tesla 2", b"tesla 3", "1 BadLine"),
    (b"tesla 2", b"tesla 1", "6 BadLine"),
    (b"tesla 2\n", b"tesla 2 ", "1 BadLine"),
    (b"stream 0", b"strean 0", "2 BadLine"),
    (b"a7\n", b"a7 ", "2 BadLine"),
    (b"a7", b"g7", "2 BadHex"),
    (b"start 1", b"start-1", "3 BadLine"),
    (b"start 1", b"start 0", "3 BadNumber"),
    (b"1615", b"1616", "3 BadNumber"),
    (b"interval 3", b"intervals3", "4 BadLine"),
    (b"interval 3", b"interval 0", "4 BadNumber"),
    (b"3600000000", b"3600000001", "4 LimitPassed"),
    (b"last 1", b"past 1", "5 BadLine"),
    (b"last 1", b"last +", "5 BadNumber"),
    (b"last 1048576", b"last 1048577", "5 LimitPassed"),
    (b"tag 32", b"tap 32", "6 BadLine"),
    (b"tag 32", b"tag 3 ", "6 BadLine"),
    (b"tag 32", b"tag 02", "6 BadNumber"),
    (b"tag 32", b"tag 33", "6 LimitPassed"),
    (b"tag 32", b"tag 12", None),
    (b"chain 2 0", b"chaim 2 0", "7 BadLine"),
    (b"chain 2 0", b"chain 2 x", "7 BadNumber"),
    (b"chain 2 0", b"chain 0 0", "7 LimitPassed"),
    (b"0 d", b"0 D", "7 BadHex"),
    (b"chain 3", b"chain 2", "8 DelaysNotRising"),
    (b"4096", b"4097", "9 LimitPassed"),
    (b"4096 1048576", b"4096 1048577", "9 IndexPastLast"),
    (b"tag 32", b"tag 9", "6 LimitPassed"),
    (b"tag 32", b"tag 10", None),
    (b"tag 32", b"tag 1", "6 LimitPassed"),
    (b"tag 32", b"chain 1 0", "6 BadLine"),
]
# Where the text is cut, what then follows, and why it is refused.
CUT = [
    (b"tesla", b"", "1 BadLine"),
    (b"interval", b"", "4 BadLine"),
    (b"chain 2", b"", "6 NoChain"),
    (b"chain 2", b"c", "6 BadLine"),
    (b"\nchain 5", b"\n", None),
    (b"\nchain 5", b"", "6 BadLine"),
]
# The text whose chains are others, how many they are, what follows them, and why it is refused.
CHAINS = [
    (BASE, 4, b"", None), (BASE, 4, b"c", "10 TooManyChains"), (BASE, 5, b"", "10 TooManyChains"), (WIDE, 0, b"", "7 NoChain"),
    *((WIDE, count, b"", None) for count in range(1, 9)), (WIDE, 8, b"c", "15 TooManyChains"), (WIDE, 9, b"", "15 TooManyChains"),
]


def changed(text, old, new):
    """A text with other words in the place of some."""
    assert old in text, old
    return text.replace(old, new, 1)


def other_chains(text, count, end):
    """The front of a setup up to its chains, so many others, and an end."""
    return text[:text.index(b"chain")] + b"".join(b"chain %d 0 %s\n" % (it + 1, TWO.hex().encode()) for it in range(count)) + end


def setups(name, rows):
    """Replays of no records, over setups of which some are refused."""
    files = {f"setup{number}": text for number, (text, _) in enumerate(rows)}
    lines = [(f"replay setup{number} 30000 16 none out", 2 if why else 0, refused(f"setup {why}") if why else report())
             for number, (_, why) in enumerate(rows)]
    return (f"setups: {name}", lines, {} if all(why for _, why in rows) else {"out": b""}, {**files, **NO_RECORDS})


SETUPS = [
    setups("changed lines", [(changed(BASE, old, new), why) for old, new, why in OF_BASE]),
    setups("changed lines of version 2", [(changed(WIDE, old, new), why) for old, new, why in OF_WIDE]),
    setups("cut texts", [(BASE[:BASE.index(at)] + end, why) for at, end, why in CUT]),
    setups("many chains", [(other_chains(*it), why) for *it, why in CHAINS]),
]

SEEDS = seeds_text([bytes.fromhex("0123456789abcdef") * 4, b"\x22" * 32])
ONE_SEED = SEEDS[:-70]
# A part of the text of the two seeds, what stands in its place, and why it is refused then.
OF_SEEDS = [
    (b"seeds 1", b"seeds 2", "1 BadLine"),
    (b"seeds 1", b"seeds", "1 BadLine"),
    (b"seeds 1\n", b"seeds 1 \n", "1 BadLine"),
    (b"seeds 1\n", b"seeds 1", "1 BadLine"),
    (b"seed 01", b"Seed 01", "2 BadLine"),
    (b"seed 01", b"seed  01", "2 BadLine"),
    (b"seed 01", b"seed01", "2 BadLine"),
    (b"seed 01", b"seeds 0X", "2 BadLine"),
    (b"seed 01", b"seed 1", "2 BadHex"),
    (b"seed 01", b"seed 001", "2 BadHex"),
    (b"seed 01", b"seed 0g", "2 BadHex"),
    (b"ef\n", b"eF\n", "2 BadHex"),
    (b"seed 22", b"seed 2A", "3 BadHex"),
    (b"22\n", b"22 \n", "3 BadLine"),
    (b"22\n", b"22", "3 BadLine"),
    (b"22\n", b"22\n\n", "4 WrongCount"),
]
# A text, for how many chains it is, and why it is refused; None where it isn't.
COUNTS = [
    (b"", 2, "1 WrongCount"), (b"tesla-seeds 1", 2, "1 BadLine"), (b"tesla-seeds 1\n", 2, "2 WrongCount"),
    (b"tesla-seeds 1\ns", 2, "2 BadLine"), (ONE_SEED, 1, None), (ONE_SEED, 2, "3 WrongCount"), (SEEDS, 1, "3 WrongCount"),
    (SEEDS, 2, None), (SEEDS, 3, "4 WrongCount"), (b"\n" * 4096, 2, "1 BadLine"), (b"\n" * 4097, 2, "0 TooLong"),
]


def of_seeds(name, rows):
    """Runs of chain over seeds of which some are refused, to a file that isn't looked at."""
    files = {f"seeds{number}": text for number, (text, _, _) in enumerate(rows)}
    lines = [(f"chain made seeds{number} 00000000000000a7 1000000 100000 8 {' '.join(map(str, range(2, 2 + count)))}",
              3 if why else 0, refused(f"seeds {why}") if why else b"chains %d\n" % count)
             for number, (_, count, why) in enumerate(rows)]
    return (f"seeds: {name}", lines, {}, files)


OF_SECRETS = [
    of_seeds("changed lines", [(changed(SEEDS, old, new), 2, why) for old, new, why in OF_SEEDS]),
    of_seeds("counts and lengths", COUNTS),
]

STREAM = Stream(0, 2, 5)
HI = STREAM.frame(1, b"hi")
YO = STREAM.frame(3, b"yo", keyed=True)
HI_2 = b"TSLA\2" + HI[5:25] + b"\x0a" + HI[25:35] + b"\0" + HI[42:52] + b"\0"
KEYS = STREAM.told((0, 1), (1, 1))
EIGHT = frame_text(KeysFrame(2, 0xa7, [KeyRow(chain, 10 - chain, bytes(32)) for chain in range(8)]))
# Frames, and places with the bytes under which they are none.
DAMAGED = [
    # The magic, the version, the kind, the length, the count and the flag.
    (YO, [(0, 0), (3, 0), (4, 2), (5, 0), (5, 2), (5, 3), (21, 1), (21, 3), (24, 0), (24, 1), (24, 5), (41, 0), (41, 2)]),
    # The version, the count, the length of the tags and the flag.
    (HI_2, [(4, 0), (4, 1), (4, 3), (24, 9), (25, 9), (25, 11), (25, 33), (36, 2)]),
    # The kind, the count, and the chains that stand in the order 0 and 1.
    (KEYS, [(5, 1), (14, 0), (14, 1), (14, 3), (14, 5), (15, 1), (52, 0)]),
    # The version, under which eight rows are too many, and the last chain.
    (EIGHT, [(4, 1), (14, 9), (274, 6)]),
]


def rows_of(version, count, size, payload=b""):
    """What is spelled as a frame of so many rows without keys, whose tags have so many bytes."""
    return frame_text(DataFrame(version, 0xa7, 1, 0, payload, size, [TagRow(b"\7" * size, None)] * count))


def datagrams():
    """Datagrams, each with whether it is a frame."""
    for frame, changes in DAMAGED:
        yield frame, True
        yield from ((frame[:size], False) for size in range(len(frame)))
        yield from ((frame[:place] + bytes([byte]) + frame[place + 1:], False) for place, byte in changes)
        yield frame + b"\0", False
    for size in range(34):
        frame, is_one = rows_of(2, 1, size), 10 <= size <= 32
        yield frame, is_one
        yield from ((frame[:front], False) for front in range(len(frame) if is_one else 0))
    for count in range(10):
        yield rows_of(1, count, 16), 1 <= count <= 4
        yield rows_of(2, count, 10), 1 <= count <= 8
        yield rows_of(3, count, 16), False
    yield rows_of(1, 1, 16, bytes(1200)), True
    yield rows_of(1, 1, 16, bytes(1201)), False


def of_frames():
    """A trace of these datagrams, which come to a receiver of another stream."""
    all_of = list(datagrams())
    entries = [Arrival(0, 1_150_000, it, ("Foreign", 0xa7) if is_frame else ("Malformed",)) for it, is_frame in all_of]
    frames = sum(is_frame for _, is_frame in all_of)
    return ("trace: frames that are cut, altered and at their limits", "trace setup 30000 16 capture out", 0,
            report(arrivals=len(all_of), malformed=len(all_of) - frames, foreign=frames),
            {"out": trace_text([*entries, Ended(0), Taken(0, ("Over",))])},
            {"setup": BASE.replace(b"00000000000000a7", b"00000000000000a8"),
             "capture": file_text(CAPTURE, [Arrives(1_150_000, it) for it, _ in all_of])})


def sends(name, stream, *records, setup=None):
    """A run of send over a script of these records, which are messages of a reading and a payload, and disclosures."""
    script = file_text(SCRIPT, [Sends(*it) if len(it) == 2 else Discloses(*it) for it in records])
    sent, fault = sending(stream, script)
    printed = refused("script %d %s" % fault) if fault else b"frames %d\n" % sum(it != Takes() for it in sent)
    return (f"send: {name}", "send setup secret script out", 3 if fault else 0, printed, {"out": file_text(CAPTURE, sent)},
            {"setup": setup or setup_text(stream.setup), "secret": seeds_text(stream.seeds), "script": script})


# Another program made these setups and frames: a message "yo" in interval 5,000, and a disclosure in interval 6,000.
LONGEST = b"""\
tesla 2
stream 00000000000000a7
start 1000000
interval 100000
last 1048576
tag 32
chain 4096 0 d93d30c020e86b1b1c5ee13a2a5d00331188156ad2a43aed07d0aa5d26b2d2ef
"""
FAR_MESSAGE = """
54534c41020100000000000000a70000138800000002796f01200f65a41f0982a7dc9506325a616078aadb1c9727c37cbf765aa342d7848953ff018d
235864c891b5842c5d1b5f3d2594d880bab47eb76cd446df07e46d1b65f09e
"""
FAR_KEYS = """
54534c41020200000000000000a701000000077010d80334800b3b1d8460fa8b6737d99aef0953297f27b2df1c2d653846ae2115
"""
LONG = b"""\
tesla 2
stream 00000000000000a7
start 1000000
interval 100000
last 131072
tag 32
chain 1 0 b634fa8f7ece498e8698cf5d1b52019d0e39407da92b2540767bf41edd9efc23
chain 8 0 954e474db27d707c0e068f9cad097a54e013451fbd3eddf83e176e38205e1dbc
chain 64 0 dffef37f5960f9b2c0700e7e6b3c9857482b6a1efc6a8bde1fa96c2c3e649cd8
chain 512 0 936fcbd5d92196b72aefb9639816ed89f28446e92a48463f895744956912adb0
chain 1024 0 209466f68b07f1a8e932404d0e3d65f14d186d0fc3df342feb62a148074fe251
chain 2048 0 7677c142c5d5f669aad8cbd0336d8cf6dc393600f2dde25d0257674a84e54964
chain 3072 0 3ee3c8aa5ac44f3eeb0581cd2d6600ee2b659a860745672fbdda68b287a95e06
chain 4096 0 a0d0ac2eb1ece5d5f59ca4dd6ae32fccf547b4a01bbacb20635046177a48bcc0
"""
LONG_MESSAGE = """
54534c41020100000000000000a70000138800000002796f0820378760dde6be4ca3dcc0064b2f6da7beaf5663542b28d10bbee3bd17b91463420122
4b3e886e77de19254239de3daf37c6716208586a12f87779a37495cd408c4ba53dfb78d79c838b98f7c2c3ad2346947d22d21e30d3791678471b571b
d4da57012785404b774f7138ffc9ad648e693c97fbf2ef6c992853fdc8a9ca79de66a0376ad150fdf47fbc2f2ce121a788cfa081d83f903073dfd2a1
ba61342e62c6ff0d01e8e04499603690f7923551fa9882fd5a5f579b8b089217ad7cb1297bc41e939a88699911a6e7f59b498a4894c1a8d9abb1ce9a
c3fbf686e245fac95546f1ec8c01b632012d71b8943a55208f58422a1c6a628698784cf2a48314b8a389e47e896a2b9070d5ab02b52e733e83a01b8b
fd3a7d8fe209d5d29aeacf6fd47f1740feae01c60785209d158a3715f51ae4e9eaf232b1901e018043358d4319125b8312931edcc5363952c1663255
b521f8e8d8f463a2eb092edaaabb5544f8bba62f63d1f00174f35421979253393e30b48e36ca530fab321a48fa322897bfe1c0f35683cb697042cf28
0a49deba08e4d4c34f40d9779786f158d047830e05f8576342fe197301b953c94cab50533b3404246585f340304c4bcf85a8f30596a167b995e943fd
cefec337deaa5cad73808e2d8c684995b5a64dd4801756f54f9a4128ff3cfbbc08018915fbc4ae88881d03aaa06193c849c1e3278e8e532d55b9295f
a5dd41bcafe2
"""
LONG_KEYS = """
54534c41020200000000000000a708000000176fd0f09c91021ff92d5bb904d379e505b14a9e6cff802151d23c668b680c4463c60100001768aee47c
3ff206d28041eaa367bec081fd55897932846117de0ed74bfb44175fff0200001730a77b17cfff2b0aaa7755c33f0eb9a82f91b66df2e8820bf57c8a
b033f103a19303000015702177d45c08178fc01b8cac6179aae4a5d5b0af5a3485515cc1f95632712e3f2b0400001370c1e3d51a038e2df4c2ac0cb4
a70cd8191a61b237831a436a5dbeb04e50caa4950500000f708546361cee7c0742eeb29546d51ad0e469a7ddecdfaac7056071c17e38f958de060000
0b708efb73b6c27e46d12d15fa0f83c9ca1574f100b32373b90ae2089f76ddbe5698070000077033dd80666083b3481520c95f1a82a367f5e58a60e5
309e38490ddf9180b81ce4
"""


def of_far(name, chains, setup, message, keys):
    """A run of send that makes these two frames, which are in hexadecimal."""
    script = file_text(SCRIPT, [Sends(501_000_000, b"yo"), Discloses(601_000_000)])
    sent = [Arrives(501_000_000, bytes.fromhex(message)), Takes(), Arrives(601_000_000, bytes.fromhex(keys)), Takes()]
    return (f"send: {name}", "send setup secret script out", 0, b"frames 2\n", {"out": file_text(CAPTURE, sent)},
            {"setup": setup, "secret": seeds_text(seeds(chains)), "script": script})


def made(version, last, tag, *delays):
    """A stream of these delays."""
    return stream_of(version, 0xa7, Times(1_000_000, 100_000, last), tag, delays, seeds(len(delays)))


AT_1, AT_2, AT_3, AT_13 = 1_150_000, 1_250_000, 1_350_000, 2_350_000
TWO_CHAINS = made(1, 8, 16, 2, 5)
LIFE = [(AT_1, b"hi"), (1_160_000, b""), (AT_3, b"yo"), (1_650_000,), (1_660_000, b"z"), (1_899_999, b"e"), (AT_13,)]
LATER = setup_of((2, 3, key_of(TWO_CHAINS, 0, 3)), (5, 8, key_of(TWO_CHAINS, 1, 8)))
MOST_EIGHT = made(2, 8, 32, *range(1, 9))
SENDS = [
    sends("a whole life", TWO_CHAINS, *LIFE),
    sends("a whole life with tags of 10 bytes", made(2, 8, 10, 2, 5), *LIFE),
    sends("a whole life under a setup of later keys", TWO_CHAINS, *LIFE, setup=LATER),
    sends("a whole life of eight chains with tags of 32 bytes", MOST_EIGHT, *LIFE),
    sends("the longest frame", MOST_EIGHT, (1_899_999, b"x" * 1200)),
    # A disclosure that tells nothing leaves all as it was.
    sends("the least reading of a message", TWO_CHAINS, (1_099_999, b"a")),
    sends("a message before a disclosure that told nothing", TWO_CHAINS, (999_999,), (AT_2,), (AT_1, b"a")),
    sends("a disclosure before a message", TWO_CHAINS, (AT_2, b"a"), (AT_1,)),
    sends("a message before a disclosure", TWO_CHAINS, (AT_2, b"a"), (AT_3,), (AT_2, b"b")),
    sends("a message behind the last keys, in an earlier interval", TWO_CHAINS, (AT_13,), (1_850_000, b"a")),
    sends("a message behind the last keys", TWO_CHAINS, (AT_13,), (AT_13, b"a")),
    of_far("the longest chain with the longest delay", 1, LONGEST, FAR_MESSAGE, FAR_KEYS),
    of_far("eight chains of 131,072 keys with delays of 1 to 4,096", 8, LONG, LONG_MESSAGE, LONG_KEYS),
]

MOST_INTERVALS = setup_text(Setup(1, 0xa7, Times(1_000_000, 100_000, 2 ** 20), None,
                                  [ChainRow(2, 0, b"\x55" * 32), ChainRow(5, 0, b"\x55" * 32)]))


def far(interval):
    """A frame of an interval, with a key on chain 0 that is none of the stream."""
    return frame_text(DataFrame(1, 0xa7, interval, 0, b"", 16, [TagRow(bytes(16), b"\x44" * 32), TagRow(bytes(16), None)]))


def flood():
    """A flood of forgeries of interval 1: the key of the fast chain frees no place, and that of the slow one frees all."""
    forged = [Arrives(AT_1, rows_of(1, 2, 16)[:18] + number.to_bytes(2, "big") + rows_of(1, 2, 16)[20:]) for number in range(4097)]
    more = [(AT_3, STREAM.told((0, 1))), (1_360_000, STREAM.frame(3, b"a")), (1_650_000, STREAM.told((1, 1))),
            (1_660_000, STREAM.frame(6, b"d"))]
    return ("replay: a flood of forgeries", "replay setup 30000 4096 capture out", 0,
            report(arrivals=4101, full=2, kept=4097, keys=2), {"out": b""},
            {"setup": BASE, "capture": file_text(CAPTURE, [*forged, *(Arrives(*it) for it in more)])})


FLOODS = [
    flood(),
    # One is refused behind a walk of a million intervals, and the others without one.
    ("replay: keys far from the newest", "replay setup 30000 16 capture out", 0, report(arrivals=3, badkey=1, future=1, misfit=1),
     {"out": b""}, {"setup": MOST_INTERVALS, "capture": file_text(CAPTURE, [
         Arrives(100_001_050_000, far(1_000_000)), Arrives(AT_1, far(1_000_000)), Arrives(104_858_800_000, far(2 ** 20 + 1))])}),
]

CASES = [of_frames(), *SENDS, *FLOODS]
SEQUENCES_OF_FORMATS = [*SETUPS, *OF_SECRETS]
