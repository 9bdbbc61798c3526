"""Wrong models, each with one definition that is another one; cases that are of use find each out."""
from . import clock, epochs, files, frames, histories, promises, senders, setups, traces
from .histories import chain_row, chains, has_passed, is_settled, name_of, places_released
from .listed import remembered


def safe_one_later(_):
    """A chain is safe one interval too long."""
    return lambda bound, interval, delay, newest_index: bound <= interval + delay and newest_index < interval


def safe_by_the_clock(_):
    """A chain is safe though its key was taken."""
    return lambda bound, interval, delay, newest_index: bound < interval + delay


def without_verdicts(*names):
    """Takes keys under fewer verdicts."""
    return lambda right: lambda verdict: right(verdict) and verdict[0] not in names


def proves_unsafe(right):
    """A chain proves a packet though it wasn't safe."""
    return lambda cfg, before, new, packet, chain: right(cfg, before, new, packet._replace(chains=255), chain)


def greatest_chain(right):
    """The greatest chain that proves a packet is told."""
    def proved_by(cfg, before, new):
        found = right(cfg, before, new)
        packets = [histories.packet_of(before.items[release.place]) for release in found]
        proofs = [[chain for chain in chains(cfg) if histories.proves(cfg, before, new, packet, chain)] for packet in packets]
        return [release._replace(chain=proof[-1]) for release, proof in zip(found, proofs)]
    return proved_by


def released_again(_):
    """Each packet that is proved is released."""
    return remembered(lambda cfg, arrivals: histories.candidates(cfg, arrivals))


def gone_at_the_take(_):
    """A packet that was given is gone at once."""
    def is_gone(cfg, arrivals, given, place, packet):
        settled = is_settled(cfg, arrivals, place, packet) and place not in places_released(cfg, arrivals)
        return settled or place in places_released(cfg, arrivals, given)
    return is_gone


def gone_untaken(_):
    """A packet that every chain has passed is gone though no take gave it."""
    def is_gone(cfg, arrivals, _given, place, packet):
        passed = all(has_passed(cfg, arrivals, packet.frame.interval, chain) for chain in chains(cfg))
        return passed or is_settled(cfg, arrivals, place, packet) and place not in places_released(cfg, arrivals)
    return is_gone


def never_settled(_):
    """A packet that no chain can prove any more keeps its place."""
    return lambda cfg, arrivals, place, packet: place in histories.places_proved(cfg, arrivals)


def full_before_repeat(right):
    """Full is told before Repeat."""
    def packet_verdict(cfg, arrivals, given, chain_set, frame):
        full = histories.held_of(cfg, arrivals, given) == cfg.capacity
        return ("Full",) if chain_set and full else right(cfg, arrivals, given, chain_set, frame)
    return packet_verdict


def repeat_before_late(right):
    """Repeat is told before Late."""
    def packet_verdict(cfg, arrivals, given, chain_set, frame):
        repeat = name_of(frame) in [release.name for release in histories.released(cfg, arrivals)]
        return ("Repeat",) if repeat else right(cfg, arrivals, given, chain_set, frame)
    return packet_verdict


def without_quota(right):
    """No interval has a quota."""
    return lambda cfg, arrivals, given, asked=None: right(cfg, arrivals, given, asked) if asked is None else -1


def without_capacity(right):
    """The quota alone counts."""
    return lambda cfg, arrivals, given, asked=None: right(cfg, arrivals, given, asked) if asked is not None else -1


def judged_before_keys(_):
    """Late, Repeat, Full and Kept are judged before the frame's own keys are taken."""
    def verdict_of(cfg, arrivals, given, _ingest, reading, text):
        frame, bound = frames.frame_of(text), clock.bound_of(cfg.setup.times, cfg.lag, reading)
        if frame is None:
            return ("Malformed",)
        return histories.refusal(cfg, arrivals, bound, frame) or histories.verdict_taken(cfg, arrivals, given, bound, frame)
    return verdict_of


def last_bad_key(right):
    """The greatest chain with a bad key is told."""
    def refusal(cfg, arrivals, bound, frame):
        verdict = right(cfg, arrivals, bound, frame)
        if not verdict or verdict[0] != "BadKey":
            return verdict
        return "BadKey", [row.chain for row in histories.keys_of(cfg, frame) if histories.is_bad(cfg, arrivals, row)][-1]
    return refusal


def misfit_first(right):
    """Misfit is told before Foreign."""
    def refusal(cfg, arrivals, bound, frame):
        return ("Misfit",) if histories.is_misfit(cfg, frame) else right(cfg, arrivals, bound, frame)
    return refusal


def fits_so(change):
    """A frame with one field that is looked at otherwise."""
    return lambda right: lambda cfg, frame: right(cfg, change(cfg, frame) if isinstance(frame, frames.DataFrame) else frame)


def keys_fit(right):
    """Each disclosure fits but for chains that aren't there."""
    def fields_misfit(cfg, frame):
        if isinstance(frame, frames.KeysFrame):
            return any(row.chain >= len(cfg.setup.rows) for row in frame.rows)
        return right(cfg, frame)
    return fields_misfit


def without_key_test(right):
    """Keys aren't of the future."""
    return lambda cfg, bound, frame: right(cfg, bound, frame) and (bound is None or isinstance(frame, frames.DataFrame))


def newest_from_zero(_):
    """The commitment's index doesn't count."""
    def changed(cfg, arrivals, chain):
        return max([0, *(row.index for row in histories.fresh_keys(cfg, arrivals) if row.chain == chain)])
    return lambda cfg, arrivals, chain: changed(cfg, arrivals, chain) if len(arrivals) else 0


def any_end(_):
    """A take is over once an ingest has ended."""
    return lambda history, ingest: any(isinstance(entry, histories.Ended) for entry in history)


def by_digest(right):
    """A promise is looked for by its name alone."""
    def promise_used(learnt_before, frame):
        named = [at for at, it in enumerate(learnt_before) if not it.used and it.promise.name == name_of(frame)]
        return named[0] if named else right(learnt_before, frame)
    return promise_used


def used_again(_):
    """A promise that was used counts still."""
    def promise_used(learnt_before, frame):
        wanted = promises.Promise(name_of(frame), promises.sha256(frame.payload))
        return next((at for at, it in enumerate(learnt_before) if it.promise == wanted), None)
    return promise_used


def early_only_if(*names):
    """Arrivals with fewer verdicts are early."""
    return lambda right: lambda arrival: right(arrival) if arrival.verdict[0] in names else None


def epochs_at_most(count):
    """Fewer epochs, or more."""
    def make(right):
        return lambda configs, epoch, payload: ("EpochsSpent",) if len(configs) == count else right(configs, epoch, payload)
    return make


def any_epoch(right):
    """Each epoch hands over."""
    return lambda configs, epoch, payload: right(configs, len(configs) - 1, payload)


def newest_first(right):
    """A take asks the newest epoch alone."""
    def answers_in(cfg, history):
        asked = right(cfg, history)
        return asked if len(asked) == 1 or asked[-1][0] != "Given" else asked[:-1] + [("Empty",)]
    return answers_in


def number_within(right):
    """The limits of numbers in frames are wider by one."""
    return lambda fields, count, least, most: right(fields, count, least, most + (1 if most == 1_200 else 0))


def loose(_):
    """Bytes behind the fields of a frame are passed over."""
    return lambda fields: None


def shifted(function):
    """An answer that is changed."""
    return lambda right: lambda *words: function(right(*words))


def never(*_):
    """No, whatever is asked."""
    return False


def without_early_keys(cfg, frame):
    """A frame without the keys of rows whose chain has none to tell yet."""
    delays = [chain_row(cfg, min(at, len(cfg.setup.rows) - 1)).delay for at, _ in enumerate(frame.rows)]
    rows = [row if frame.interval >= delay else row._replace(key=None) for delay, row in zip(delays, frame.rows)]
    return frame._replace(rows=tuple(rows))


def within_last(cfg, frame):
    """A frame whose interval isn't above the last."""
    return frame._replace(interval=min(frame.interval, cfg.setup.times.last))


def some_row_less(cfg, frame):
    """A frame without rows too many."""
    return frame._replace(rows=frame.rows[:len(cfg.setup.rows)])


def old_keys_too(_):
    """A key that isn't newer than those before is bad."""
    return lambda cfg, arrivals, row: not histories.is_good(cfg, arrivals, row)


def long_body_early(right):
    """A body of 1,161 bytes is too long."""
    def answer_to(setup, log, record):
        return "LongBody" if len(getattr(record, "payload", b"")) == 1_161 else right(setup, log, record)
    return answer_to


def one_less(right):
    """The least number is smaller by one."""
    return lambda least, most, number, line: right(least - (number == least - 1), most, number, line)


def seven_chains(right):
    """The last bit of a set isn't written."""
    return lambda verdict: right(("Kept", verdict[1] & 127) if verdict[0] == "Kept" else verdict)


TAKEN = ("Late", "Repeat", "Full", "Kept", "Keys")
EARLY = TAKEN[:4]


CHANGES = [
    ("a chain is safe one interval too long", clock, "is_safe", safe_one_later),
    ("a chain is safe though its key was taken", clock, "is_safe", safe_by_the_clock),
    ("a bound before the start", clock, "bound_of", shifted(lambda bound: 0 if bound is None else bound)),
    ("bounds are one interval later", clock, "bound_of", shifted(lambda bound: None if bound is None else bound + 1)),
    *((f"{name} takes no keys", histories, "takes_keys", without_verdicts(name)) for name in TAKEN),
    ("each key is good", histories, "is_bad", lambda right: never),
    ("the commitment's index doesn't count", histories, "newest", newest_from_zero),
    ("old keys are verified", histories, "is_bad", old_keys_too),
    ("the greatest chain with a bad key is told", histories, "refusal", last_bad_key),
    ("Misfit is told before Foreign", histories, "refusal", misfit_first),
    ("an unsafe chain proves", histories, "proves", proves_unsafe),
    ("each tag is right", histories, "verifies", lambda right: lambda cfg, frame, chain, row: True),
    ("the greatest chain is told", histories, "proved_by", greatest_chain),
    ("a name is released again", histories, "released", released_again),
    ("a packet that was given is gone", histories, "is_gone", gone_at_the_take),
    ("a packet that wasn't given is gone", histories, "is_gone", gone_untaken),
    ("a packet that can't be proved keeps its place", histories, "is_settled", never_settled),
    ("Full is told before Repeat", histories, "packet_verdict", full_before_repeat),
    ("Repeat is told before Late", histories, "packet_verdict", repeat_before_late),
    ("there is no quota", histories, "held_of", without_quota),
    ("there is no capacity beside the quota", histories, "held_of", without_capacity),
    ("a frame's own keys come too late", histories, "verdict_of", judged_before_keys),
    ("interval 0 fits", histories, "fields_misfit", fits_so(lambda cfg, frame: frame._replace(interval=frame.interval or 1))),
    ("an interval above the last fits", histories, "fields_misfit", fits_so(within_last)),
    ("tags of another length fit", histories, "fields_misfit",
     fits_so(lambda cfg, frame: frame._replace(tag_length=cfg.setup.tag_length))),
    ("a row too many fits", histories, "fields_misfit", fits_so(some_row_less)),
    ("a key before its delay fits", histories, "fields_misfit", fits_so(without_early_keys)),
    ("a key above the last fits", histories, "fields_misfit", keys_fit),
    ("the other version fits", histories, "is_misfit", lambda right: histories.fields_misfit),
    ("keys aren't of the future", histories, "is_future", without_key_test),
    ("a take is over after the first end", histories, "has_end", any_end),
    ("a position is one too great", histories, "record_of", shifted(lambda it: it._replace(position=it.position + 1))),
    ("handovers need no new stream", epochs, "next_judged", shifted(lambda it: ("Opened",) if it[0] == "UsedStream" else it)),
    ("each epoch hands over", epochs, "next_of", any_epoch),
    ("fifteen epochs", epochs, "next_of", epochs_at_most(15)),
    ("a take asks one epoch", epochs, "answers_in", newest_first),
    ("a promise needs no digest", promises, "promise_used", by_digest),
    ("a promise is used again", promises, "promise_used", used_again),
    *((f"{name} is never early", promises, "candidate", early_only_if(*(set(EARLY) - {name}))) for name in EARLY),
    ("a promise needs a body", promises, "promise_of",
     lambda right: lambda payload: right(payload) if len(payload) > 39 else None),
    ("nothing is taught", promises, "taught_by", lambda right: lambda payload: []),
    ("a body is too long too soon", promises, "answer_to", long_body_early),
    ("keys are told one interval too soon", senders, "key_due",
     lambda right: lambda stream, chain, interval: right(stream, chain, interval + 1)),
    ("numbers aren't counted", senders, "messages_of", lambda right: lambda times, interval, log: 0),
    ("the latest interval doesn't count", senders, "latest_of", lambda right: lambda times, log: 0),
    ("a payload of 1,201 bytes", frames.Fields, "number_within", number_within),
    ("bytes behind a frame", frames.Fields, "end", loose),
    ("decimals with leading zeros", setups, "decimal_of",
     lambda right: lambda word, line: right(word.lstrip(b"0") or word[-1:], line)),
    ("digits in upper case", setups, "hex_in", lambda right: lambda count, word, line: right(count, word.lower(), line)),
    ("limits that are wider by one", setups, "within", one_less),
    ("a record that ends too soon", files, "record_at", shifted(lambda it: "BadKind" if it == "Truncated" else it)),
    ("a set of chains without its last", traces, "verdict_text", seven_chains),
]
