"""test_art_map.py [N]: N random calls on the map and on a dict, and what a user may do wrong."""

import random
import sys

from art_map import ArtMap, ConflictError


def conflicts(model, key):
    """Whether a stored key is a proper prefix of the key, or the key is one of a stored key."""
    return key not in model and any(k.startswith(key) or key.startswith(k) for k in model)


def compare(calls):
    chance = random.Random(7)
    art, model = ArtMap(), {}
    key = lambda: bytes(chance.choice(b"abc\0\xff") for _ in range(chance.randrange(7)))
    refused = 0
    for step in range(calls):
        k, kind = key(), chance.randrange(20)
        if kind < 7:
            value = chance.getrandbits(64)
            try:
                art[k] = value
                assert not conflicts(model, k)
                model[k] = value
            except ConflictError:
                assert conflicts(model, k)
                refused += 1
        elif kind < 9:
            assert art.get(k) == model.get(k)
            assert (k in art) == (k in model)
        elif kind < 11:
            expected = next(((p, v) for p, v in model.items() if k.startswith(p)), None)
            assert art.longest_prefix(k) == expected
        elif kind < 14:
            assert art.pop(k, None) == model.pop(k, None)
        elif kind == 14 and len(k) > 2:
            gone = [p for p in model if p.startswith(k)]
            assert art.remove_prefix(k) == len(gone)
            for p in gone:
                del model[p]
        elif kind == 15:
            art.overwrite(k, step)
            for p in [p for p in model if p.startswith(k) or k.startswith(p)]:
                del model[p]
            model[k] = step
        elif kind == 16:
            assert art.first() == min(model.items(), default=None)
            assert art.last() == max(model.items(), default=None)
            assert art.after(k) == min(((p, v) for p, v in model.items() if p > k), default=None)
            assert art.before(k) == max(((p, v) for p, v in model.items() if p < k), default=None)
        elif kind == 17:
            low, high, ends = k, key(), (chance.random() < 0.5, chance.random() < 0.5)
            inside = lambda p: (low < p or ends[0] and low == p) and (p < high or ends[1] and p == high)
            assert list(art.irange(low, high, ends)) == sorted(i for i in model.items() if inside(i[0]))
            assert list(art.irange(low)) == sorted(i for i in model.items() if i[0] >= low)
        elif kind == 18:
            assert list(art.items(prefix=k)) == sorted(i for i in model.items() if i[0].startswith(k))
        assert len(art) == len(model)
        if step % 1000 == 0:
            assert list(art.items()) == sorted(model.items())
            assert list(art) == sorted(model)
        if step % 20000 == 19999:
            art.clear()
            model.clear()
    assert art == model
    print(f"{calls} calls, {refused} conflicts: no difference")


def pages():
    """More pairs than a page has room for, and keys longer than its buffer."""
    art = ArtMap((b"%08d" % i, i) for i in range(5000))
    assert list(art.items()) == [(b"%08d" % i, i) for i in range(5000)]
    assert [v for _, v in art.items(prefix=b"00001")] == list(range(1000, 2000))
    assert [v for _, v in art.irange(b"00000100", b"00003000", (False, True))] == list(range(101, 3001))
    long = b"z" * 1000000
    art[long] = 1
    assert list(art.items())[-1] == (long, 1) and art.last() == (long, 1)
    assert art.popitem() == (long, 1) and art.popitem(last=False) == (b"00000000", 0)
    print("pages: as expected")


def raises(error, call):
    try:
        call()
    except error:
        return
    raise AssertionError(f"{error.__name__} was expected")


def misuse():
    with ArtMap({b"cat": 1}) as art:
        raises(ConflictError, lambda: art.__setitem__(b"ca", 2))
        raises(ConflictError, lambda: art.__setitem__(b"cats", 2))
        raises(ValueError, lambda: art.__setitem__(b"cats", 2))
        raises(KeyError, lambda: art[b"dog"])
        raises(KeyError, lambda: art.__delitem__(b"dog"))
        raises(TypeError, lambda: art["cat"])
        raises(TypeError, lambda: art.__setitem__(b"dog", "2"))
        raises(OverflowError, lambda: art.__setitem__(b"dog", -1))
        raises(OverflowError, lambda: art.__setitem__(b"dog", 1 << 64))
        assert "cat" not in art and art == {b"cat": 1} and art.setdefault(b"cat", 5) == 1
    art.close()
    raises(ValueError, lambda: len(art))
    raises(ConflictError, lambda: ArtMap([(b"a", 1), (b"ab", 2)]))
    raises(KeyError, lambda: ArtMap().popitem())
    assert ArtMap({b"": 9}).longest_prefix(b"anything") == (b"", 9)
    assert list(ArtMap({b"": 9}).items()) == [(b"", 9)]
    print("misuse: as expected")


if __name__ == "__main__":
    misuse()
    pages()
    compare(int(sys.argv[1]) if len(sys.argv) > 1 else 100000)
