"""The image of words: its size, an access to it, and the loader."""

from .refusal import IMAGE_SIZE, MISALIGNED, OUTSIDE, Refusal

LARGEST_IMAGE = 16384
LARGEST_BUDGET = 1000000

# Kinds of access: "whether it was a fetch, a load or a store", and for the
# loader "a fourth kind" (document 02, item 1), numbered as in REPLAY.md.
FETCH, LOAD, STORE, LOADER = range(4)


def check_size(image):
    """ "Limits: image 1 to 16,384 words" """
    if not 1 <= len(image) <= LARGEST_IMAGE:
        raise Refusal(IMAGE_SIZE)


def word_index(image, address, kind):
    """ "Word k stands at byte address 4k"; refusal 1 before refusal 2. "A
    memory access that is refused with 1 or 2 now also gives the byte address
    and whether it was a fetch, a load or a store." """
    if address % 4 != 0:
        raise Refusal(MISALIGNED, address, kind)
    if address // 4 >= len(image):
        raise Refusal(OUTSIDE, address, kind)
    return address // 4


def load(image, base, program):
    """ "Loading copies the program into the part of the image that starts at
    its base word; it answers 6 before 2 and touches no other word. An empty
    program fits at any base up to the image length." Where it does not fit,
    "the loader gives the first byte address past the image, under a fourth
    kind". Answers the new image."""
    check_size(image)
    if base + len(program) > len(image):
        raise Refusal(OUTSIDE, 4 * len(image), LOADER)
    return image[:base] + program + image[base + len(program):]
