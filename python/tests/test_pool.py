"""A pool of connections, by the order of the calls that its header states."""

import pytest

import lughemra
from lughemra import CallRefused, Pool


def refusal_of(call, *arguments):
    """Returns the name of why a call isn't made."""
    with pytest.raises(CallRefused) as told:
        call(*arguments)
    return told.value.name


def test_the_one_that_came_back_last_is_lent_first():
    pool = Pool(3)
    assert [pool.check_out() for _ in range(3)] == [(1, True), (2, True), (3, True)]
    assert refusal_of(pool.check_out) == "PoolFull"
    assert pool.check_in(1) and pool.check_in(3)
    assert [pool.check_out(), pool.check_out()] == [(3, False), (1, False)]
    assert refusal_of(pool.check_in, 4) == refusal_of(pool.check_in, 0) == "NotLent"


def test_what_is_broken_or_was_cleared_is_not_kept():
    pool = Pool(2)
    pool.check_out()
    assert not pool.check_in(1, healthy=False) and refusal_of(pool.check_in, 1) == "NotLent"
    assert pool.check_out() == (2, True)
    assert pool.check_out() == (3, True) and pool.check_in(3)
    pool.clear()
    assert not pool.check_in(2)
    assert pool.check_out() == (4, True) and pool.check_in(4) and pool.check_out() == (4, False)


def test_a_closed_pool_lends_none():
    pool = Pool()
    pool.check_out()
    pool.close()
    assert refusal_of(pool.check_out) == "Closed" and not pool.check_in(1)


def test_numbers_out_of_range_are_refused():
    for most in (0, 1025, -1):
        with pytest.raises(ValueError):
            Pool(most)
    for number in (-1, 1 << 64):
        with pytest.raises(ValueError):
            Pool().check_in(number)


def test_a_freed_pool_answers_nothing():
    with Pool(1) as pool:
        pool.check_out()
    for call in (pool.check_out, lambda: pool.check_in(1), pool.clear, pool.close):
        assert refusal_of(call) == "NoCore"


def test_a_pool_without_memory_is_a_memory_error(monkeypatch):
    monkeypatch.setattr(lughemra._library.short, "pool_new", lambda *arguments: lughemra._library.NO_MEMORY)
    with pytest.raises(MemoryError):
        Pool()
