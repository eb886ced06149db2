"""A million transactions through one registry, in time that grows as they do.

    python3 test_large.py

Takes some ten seconds, and a gigabyte.
"""

import time

import purvilgo
from test_purvilgo import STAMP, file_of_works

FILES, WORKS = 100, 10_000


def seconds_of(registry: purvilgo.Registry, file: bytes) -> float:
    """How long the processor is at one run, of works that are all new."""
    begun = time.process_time()
    answer = registry.run(file, STAMP)
    seconds = time.process_time() - begun
    assert answer.outcome.transactions == answer.file.count(b"20240601AS") == WORKS, str(answer.outcome)
    return seconds


def main() -> None:
    with purvilgo.Registry() as registry:
        seconds = [seconds_of(registry, file_of_works(WORKS, i * WORKS)) for i in range(FILES)]
        assert registry.entries == FILES * WORKS
        again = registry.run(file_of_works(WORKS, (FILES - 1) * WORKS), STAMP)
        assert again.file.count(b"20240601DU") == WORKS
        register = registry.register()
    first, second = sum(seconds[: FILES // 2]), sum(seconds[FILES // 2 :])
    # Work that grew with what was there before would take three times as long for the second half.
    assert second < 2 * first, f"{first:.1f} s, and then {second:.1f} s"
    with purvilgo.Registry.open(register) as registry:
        assert registry.entries == (FILES + 1) * WORKS
        assert registry.register() == register
    print(f"one registry: {FILES * WORKS} transactions, {first:.1f} s and {second:.1f} s")


if __name__ == "__main__":
    main()
