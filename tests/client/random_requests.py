"""Random requests for the tests of the client library."""
from shared import VERSIONS


def random_request(rng):
    version = rng.choice((1, 2))
    layers = rng.randint(1, VERSIONS[version].levels)
    most = VERSIONS[version].most_threshold
    values = [rng.randbytes(rng.choice([1, 2, 5, 63, 64, rng.randint(1, 64)])) for _ in range(layers)]
    thresholds = [rng.choice([2, 3, 20, 64, 65, 66, 128, 129, rng.randint(2, 512)]) for _ in range(layers)]
    if rng.random() < 0.1:
        thresholds[rng.randrange(layers)] = most
    extra = rng.randbytes(rng.choice([0, 1, 255, rng.randint(0, 255)])) if version == 2 else b""
    return version, rng.getrandbits(32), rng.getrandbits(32), rng.randbytes(32), thresholds, values, extra
