"""Which memory bits are free. All processors have the same fields at the same addresses, so one account serves all."""
from __future__ import annotations

ALL_BITS = 4096         # that each processor has
FREE_BITS = 3968        # from 0 up; those above them belong to messages (docs/PROGRAMMING.md, "Everyone at once")


class Memory:
    """Lends bits to fields, the highest first: texts have their own fields at low addresses most often."""

    def __init__(self) -> None:
        self._used = bytearray(ALL_BITS)        # 1 for a bit that is lent or kept
        self._kept = bytearray(ALL_BITS)        # 1 for a bit that is not lent any more

    def take(self, bits: int) -> int:
        """The address of so many free bits in one piece, which are lent now; MemoryError where there are none."""
        at = self._used.rfind(bytes(bits), 0, FREE_BITS)
        if at < 0:
            raise MemoryError(f"no {bits} of the {FREE_BITS} free memory bits are left in one piece; "
                              "a field gives its own back when no variable has it any more")
        self._used[at:at + bits] = b"\1" * bits
        return at

    def give_back(self, at: int, bits: int) -> None:
        """These bits are free again, but for those that are kept."""
        self._used[at:at + bits] = self._kept[at:at + bits]

    def keep(self, at: int, bits: int) -> None:
        """From now on these bits are lent to nobody."""
        self._used[at:at + bits] = b"\1" * bits
        self._kept[at:at + bits] = b"\1" * bits
