/* Greets whom its host names. An answer that begins with `?` names what the plug-in wants to be handed next; the last one begins with `=`.
 * docs/HOSTS.md has the host. */
#define EXPORT(name) __attribute__((export_name(name)))

static unsigned char room[256] = "=";
static unsigned used = 1;
static int has_greeting;

static unsigned long long text_at(const unsigned char *at, unsigned length) { return (unsigned long long)(unsigned)at << 32 | length; }

/* What comes next stands behind what came before, and a blank has room between them. */
EXPORT("alloc") unsigned alloc(unsigned length) { return length < sizeof room - used ? (unsigned)&room[used] : 0; }

EXPORT("handle") unsigned long long handle(unsigned address, unsigned length) {
    static const unsigned char WISH[] = "?name";
    (void)address;
    used += length;
    if (has_greeting) return text_at(room, used);
    has_greeting = 1;
    room[used++] = ' ';
    return text_at(WISH, sizeof WISH - 1);
}
