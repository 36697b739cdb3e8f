"""Why a call is refused, by number."""

NO_OCTETS = 1
TOO_MANY_OCTETS = 2
BAD_PHASE = 3
WRONG_LENGTH = 4
NOT_SERVED = 6
NO_SPACE = 7
BAD_SAMPLE_WORD = 9
NO_ONE_PHASE = 10


class Refused(Exception):
    """A refused call; `number` is what its caller gets."""

    def __init__(self, number: int) -> None:
        super().__init__(number)
        self.number = number
