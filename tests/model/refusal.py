"""The numbers of document 01, "Numbers for 'no'", and of document 02."""

MISALIGNED = 1          # address not a multiple of 4
OUTSIDE = 2             # address outside the image; program does not fit
NO_ENTRY = 3            # opcode without an entry at a dispatch
UNKNOWN_FUNCTION = 4    # ALUOp 2 and unknown function
START_STATE = 5         # start state not the engine's
IMAGE_SIZE = 6          # image size
BUDGET = 7              # budget
FIELD_TOO_LARGE = 8     # field to encode too large
FILE_LENGTH = 9         # file or file buffer not 197 bytes
FILE_MARK = 10          # mark
FILE_VERSION = 11       # version
STORE_NUMBER = 12       # store word of 2^18 or more, or entry 16 to 254
WALK_RULE = 13          # a walk rule broken: opcode, state, rule
NO_INSTRUCTIONS = 14    # average over zero instructions
OUTPUT_SHORT = 19       # output shorter than the words to write
UNREADABLE = 20         # line not readable
DEFINED_ABOVE = 21      # label defined above
UNKNOWN_LABEL = 22      # label unknown
OUT_OF_REACH = 23       # target out of reach
TOO_MANY_LINES = 24     # too many lines

SPENT = (0,)            # what stands in the refusal's place where none was


class Refusal(Exception):
    """A "no": its number; after 1 and 2 of an access to memory its byte
    address and kind, after 13 its opcode, state and rule, after 20 to 23 the
    number of the line, from 1."""

    def __init__(self, number, *parts):
        super().__init__(number, *parts)
        self.numbers = (number, *parts)
