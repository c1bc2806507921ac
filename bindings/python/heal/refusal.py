"""The refusals by name. refusals.py writes this file."""

from enum import IntEnum


class Refusal(IntEnum):
    """The refusals that calls return."""

    EMPTY = 1  # empty: no byte, or a text without an instruction
    TOO_LONG = 2  # more than 1,024 slots
    RAGGED = 3  # an incomplete last slot
    UNKNOWN_OPCODE = 4  # an unknown opcode or operation
    BAD_REGISTER = 5  # a register above R10
    FIELD_NOT_ZERO = 6  # an unused field that isn't zero
    CUT_WIDE = 7  # a wide load without its second slot
    BACKWARD = 10  # a backward jump
    OUTSIDE = 11  # a jump to the end or past it
    INTO_WIDE = 12  # a jump into a wide load
    FALLS_OFF = 13  # the last instruction neither exits nor jumps
    NO_EDGE = 14  # an unreachable instruction
    UNREADABLE = 15  # a read of a register that may be unset, or may be an address or a number
    WRITES_R10 = 16  # a write to R10
    POINTER_OPERATION = 17  # an address in an operation that addresses don't have
    POINTER_RANGE = 18  # an address moved too far, or by an unknown amount
    POINTER_COMPARED = 19  # an address in a test
    POINTER_STORED = 20  # a store of an address
    OUTSIDE_RECORD = 21  # an access that may leave the record
    WRITES_RECORD = 22  # a store into the record
    OUTSIDE_STACK = 23  # an access that may leave the stack
    UNWRITTEN_STACK = 24  # a load of stack bytes that may be unwritten
    SCALAR_ADDRESS = 25  # a number used as an address
    POINTER_RESULT = 26  # an address as the answer
    NAME_TAKEN = 30  # the name is already registered
    NO_SUCH_NAME = 31  # the name isn't registered
    FULL = 32  # the table is full: 4,096 names, or the side's limit
    HEALING = 33  # an exchange is open
    NOT_HEALING = 34  # no exchange is open
    STALE_NUMBER = 35  # the number isn't above every number begun so far
    SEED_DIFFERS = 36  # the seeds differ
    TOO_MANY_NAMES = 37  # the two tables have more names together than one may have: 4,096, or the side's limit
    MISSING = 39  # the exchange isn't complete
    JOURNAL_FULL = 40  # the journal is full: 65,536 events, or 16 for each name of the side's limit
    UNKNOWN_PROGRAM = 41  # an unknown program, or a word that is neither a built-in resolver nor a label
    OTHER_CODE = 42  # other code has the same program id
    STORE_FULL = 43  # the store is full: 256 programs
    BAD_NAME = 44  # an invalid name: not 1 to 32 bytes from 0x21 to 0x7e
    OTHER_NUMBER = 45  # the exchange numbers differ
    OWN_OFFER = 46  # a message from the side itself
    WITHDRAWN = 47  # the name is already withdrawn
    LIST_CLOSED = 48  # the list of withdrawn names is closed
    MOVED = 49  # other tables, uptimes or withdrawn names were merged
    CUT = 70  # a message that ends too early
    HEADER = 71  # not a message of this kind
    TRAILING = 72  # extra bytes after the message
    COUNT = 73  # a count above its limit: 1,048,576 rows or names, 8,192 bytes of code
    SIDE = 74  # an unknown side
    NAME = 75  # an invalid name in a message
    RESOLVER = 76  # an unknown kind of resolver
    NAME_AGAIN = 77  # a name that the list already has
    NAME_ORDER = 78  # a name that isn't above the one before it
    NO_PROGRAM = 79  # a program without code in this row or an earlier one
    PROGRAM_AGAIN = 80  # code that an earlier row already has
    PROGRAM = 81  # code in a message that the verifier rejects
    VERSION = 82  # an unsupported version of messages
    OTHER_MESSAGE = 83  # a message that differs from the one of its kind and number that was heard
    CHECKSUM = 84  # bytes that differ from their checksum
    OUT_OF_MEMORY = 90  # out of memory
    EMPTY_HANDLE = 91  # an empty handle
    OUT_OF_RANGE = 92  # an index out of range
    OTHER_LENGTH = 93  # a buffer of another length
    STILL_NAMED = 94  # a registered name has the program as its resolver
    NOT_PRIMARY = 95  # the replica isn't the primary of its view
    OTHER_VIEW = 96  # an entry of another view
    GAP = 97  # entries before this one are missing
    OWN_VIEW = 98  # a snapshot of the replica's own latest view
    EXHAUSTED = 99  # no number is left for a view or an entry
