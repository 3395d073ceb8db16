"""The numbers of the script language and of the formats by which the client goes."""

SLOTS = 64
CHUNK = 262144
MAX_KEY = 16384
MAX_BODY = 52428800
MAX_PIECE = 1 << 20
# The names and values of all elements of an entry, each with a zero byte after it.
MAX_ELEMENTS = 65536
# A line has at most 20,000 bytes, the words before a name or an origin among them.
MAX_NAME = 19900
MAX_ALTERNATIVE = 4 << 20
LAST_MOMENT = (1 << 32) - 1
# The expiration time of an entry that has none.
NO_EXPIRATION = LAST_MOMENT

# A script ends at 2^30 bytes. A run that has had more than the half is followed by a new one as soon as no slot is in
# use. The last bytes are kept for what ends the writers: the key of a doom and a close for each.
MAX_SCRIPT = 1 << 30
FULL_SCRIPT = MAX_SCRIPT >> 1
KEPT_FOR_ENDS = SLOTS * (MAX_KEY + 64)
