"""Go's size classes (`sizeclasses.go`): the bytes of a slot and the pages of a span, by class; class 0 is for large objects. And where the pages
are."""

SLOTS = [
    0, 8, 16, 24, 32, 48, 64, 80, 96, 112, 128, 144, 160, 176, 192, 208, 224, 240, 256, 288, 320, 352, 384, 416, 448, 480, 512, 576, 640, 704,
    768, 896, 1024, 1152, 1280, 1408, 1536, 1792, 2048, 2304, 2688, 3072, 3200, 3456, 4096, 4864, 5376, 6144, 6528, 6784, 6912, 8192, 9472,
    9728, 10240, 10880, 12288, 13568, 14336, 16384, 18432, 19072, 20480, 21760, 24576, 27264, 28672, 32768,
]
PAGES = [
    0, 1, 1, 1, 1, 1, 1, 1, 1, 1, 1, 1, 1, 1, 1, 1, 1, 1, 1, 1, 1, 1, 1, 1, 1, 1, 1, 1, 1, 1, 1, 1, 1, 1, 1, 2, 1, 2, 1, 2, 1, 3, 2, 3, 1, 3, 2,
    3, 4, 5, 6, 1, 7, 6, 5, 4, 3, 5, 7, 2, 9, 7, 5, 8, 3, 10, 7, 4,
]
LARGEST = 32768
PAGE = 8192
BASE = 0xC000000000  # the address of page 0


def slot_of(size: int) -> int:
    """The bytes that an object of this size takes: the slot of the least class that holds it, or whole pages."""
    if size > LARGEST:
        return -(-size // PAGE) * PAGE
    return next(slot for slot in SLOTS if slot >= size)
