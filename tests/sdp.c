/*
 * sdp: has an SDP parser read messages: libosip2's if built with -DOSIP, Sofia-SIP's if built with -DSOFIA.
 * Their headers share names, so a program has one of them. Each line of standard input has the octets of a
 * message as they were written and as they are expected, in hex. The parser must accept the former, and all
 * lines that it shows, put together again, must be the latter. Counted, but not required, is what it does with
 * messages without a media line (Rejected, Confused), and with those in which the card carries a text that
 * the parser does not accept as an attribute's. Ends with status 1 if a message differs, and prints the first.
 */
#include <stdarg.h>
#include <stdio.h>
#include <stdlib.h>
#include <string.h>

#define ROOM 4096

/* The text of a message as it is shown. */
struct shown {
    char text[ROOM];
    size_t octets;
};

/* Adds a line to what is shown. */
static void say(struct shown *s, const char *form, ...)
{
    va_list a;
    int n;

    va_start(a, form);
    n = vsnprintf(s->text + s->octets, ROOM - s->octets, form, a);
    va_end(a);
    if (n < 0 || s->octets + (size_t)n + 3 > ROOM) {
        fprintf(stderr, "no room for a message\n");
        exit(2);
    }
    s->octets += (size_t)n;
    strcpy(s->text + s->octets, "\r\n");
    s->octets += 2;
}

#ifdef OSIP
#include <osipparser2/osip_port.h>
#include <osipparser2/sdp_message.h>

#define PARSER "libosip2"
#define SKIPPED "an fmtp line without a text, as the peer sent it: RFC 4566 has no empty value"

/* Whether the parser should accept the message: it requires a value after an attribute's colon. */
static int regular(const char *wanted)
{
    return strstr(wanted, "\r\na=fmtp:\r\n") == NULL;
}

static void show_attributes(struct shown *s, sdp_message_t *m, int media)
{
    char *field, *value;

    for (int i = 0; (field = sdp_message_a_att_field_get(m, media, i)) != NULL; i++) {
        value = sdp_message_a_att_value_get(m, media, i);
        say(s, value != NULL ? "a=%s:%s" : "a=%s", field, value);
    }
}

static void show_all(struct shown *s, sdp_message_t *m)
{
    say(s, "v=%s", sdp_message_v_version_get(m));
    say(s, "o=%s %s %s %s %s %s", sdp_message_o_username_get(m), sdp_message_o_sess_id_get(m),
        sdp_message_o_sess_version_get(m), sdp_message_o_nettype_get(m), sdp_message_o_addrtype_get(m),
        sdp_message_o_addr_get(m));
    say(s, "s=%s", sdp_message_s_name_get(m));
    say(s, "c=%s %s %s", sdp_message_c_nettype_get(m, -1, 0), sdp_message_c_addrtype_get(m, -1, 0),
        sdp_message_c_addr_get(m, -1, 0));
    say(s, "t=%s %s", sdp_message_t_start_time_get(m, 0), sdp_message_t_stop_time_get(m, 0));
    show_attributes(s, m, -1);
    for (int i = 0; !sdp_message_endof_media(m, i); i++) {
        /* A second payload, which is not to be there, would show. */
        char *payload = sdp_message_m_payload_get(m, i, 0), *more = sdp_message_m_payload_get(m, i, 1);

        say(s, "m=%s %s %s %s%s", sdp_message_m_media_get(m, i), sdp_message_m_port_get(m, i),
            sdp_message_m_proto_get(m, i), payload, more != NULL ? " more" : "");
        show_attributes(s, m, i);
    }
}

/* Whether the parser takes the message, and what it shows of it. */
static int parse(const char *text, struct shown *s)
{
    sdp_message_t *m;
    int taken;

    if (sdp_message_init(&m) != 0)
        exit(2);
    taken = sdp_message_parse(m, text) == 0;
    if (taken)
        show_all(s, m);
    sdp_message_free(m);
    return taken;
}
#endif

#ifdef SOFIA
#include <sofia-sip/sdp.h>

#define PARSER "Sofia-SIP"
#define SKIPPED "an rtpmap without name and clock rate, an fmtp for another payload, several fmtp lines, of which it " \
    "keeps the last, or other than audio over RTP/AVP, whose words it alters"

/* Whether a line, with the CRLF before it, is an rtpmap with a name and a clock rate, or not an rtpmap. */
static int regular_map(const char *line)
{
    int n = 0;

    if (strncmp(line, "\r\na=rtpmap:", 11) != 0)
        return 1;
    sscanf(line, " a=rtpmap:%*u %*[A-Za-z0-9_.-]/%*[0-9]%n", &n);
    return n != 0 && line[n] == '\r';
}

/* The same of an fmtp that has the payload and a text. */
static int regular_format(const char *line, unsigned payload)
{
    unsigned format;
    int n = 0;

    if (strncmp(line, "\r\na=fmtp:", 9) != 0)
        return 1;
    return sscanf(line, " a=fmtp:%u%n", &format, &n) == 1 && format == payload && line[n] == ' ' && line[n + 1] > ' ';
}

/*
 * Whether the parser should accept the message and show all of it: in strict mode it requires attributes as RFC
 * 4566 has them, an rtpmap with name and clock rate and an fmtp for the payload of the media line.
 */
static int regular(const char *wanted)
{
    const char *media = strstr(wanted, "\r\nm="), *line;
    unsigned payload;
    int n = 0, formats = 0;

    if (sscanf(media, " m=audio %*u RTP/AVP %u%n", &payload, &n) != 1)
        return 0;
    for (line = media + n; line[2] != 0; line += 2 + strcspn(line + 2, "\r")) {
        formats += strncmp(line, "\r\na=fmtp:", 9) == 0;
        if (!regular_map(line) || !regular_format(line, payload) || formats > 1)
            return 0;
    }
    return 1;
}

static const char *family(const sdp_connection_t *c)
{
    return c->c_addrtype == sdp_addr_ip6 ? "IP6" : c->c_addrtype == sdp_addr_ip4 ? "IP4" : "none";
}

static void show_attributes(struct shown *s, const sdp_attribute_t *a)
{
    for (; a != NULL; a = a->a_next)
        say(s, a->a_value != NULL ? "a=%s:%s" : "a=%s", a->a_name, a->a_value);
}

static void show_media(struct shown *s, const sdp_media_t *m)
{
    const sdp_rtpmap_t *r = m->m_rtpmaps;

    /* A second payload, which is not to be there, would show. */
    if (r != NULL)
        say(s, "m=%s %lu %s %u%s", m->m_type_name, m->m_port, m->m_proto_name, r->rm_pt, r->rm_next ? " more" : "");
    else
        say(s, "m=%s %lu %s %s", m->m_type_name, m->m_port, m->m_proto_name,
            m->m_format != NULL ? m->m_format->l_text : "none");
    for (; r != NULL; r = r->rm_next) {
        if (!r->rm_predef && r->rm_encoding[0] != 0)
            say(s, "a=rtpmap:%u %s/%lu%s%s", r->rm_pt, r->rm_encoding, r->rm_rate, r->rm_params ? "/" : "",
                r->rm_params ? r->rm_params : "");
        if (r->rm_fmtp != NULL)
            say(s, "a=fmtp:%u %s", r->rm_pt, r->rm_fmtp);
    }
    show_attributes(s, m->m_attributes);
}

static void show_all(struct shown *s, const sdp_session_t *d)
{
    const sdp_origin_t *o = d->sdp_origin;

    say(s, "v=%lu", d->sdp_version[0]);
    say(s, "o=%s %lu %lu IN %s %s", o->o_username, (unsigned long)o->o_id, (unsigned long)o->o_version,
        family(o->o_address), o->o_address->c_address);
    say(s, "s=%s", d->sdp_subject);
    say(s, "c=IN %s %s", family(d->sdp_connection), d->sdp_connection->c_address);
    say(s, "t=%lu %lu", d->sdp_time->t_start, d->sdp_time->t_stop);
    show_attributes(s, d->sdp_attributes);
    for (const sdp_media_t *m = d->sdp_media; m != NULL; m = m->m_next)
        show_media(s, m);
}

/* Whether the parser takes the message, and what it shows of it. */
static int parse(const char *text, struct shown *s)
{
    su_home_t home[1] = { SU_HOME_INIT(home) };
    sdp_parser_t *p;
    sdp_session_t *d;
    int taken;

    su_home_init(home);
    p = sdp_parse(home, text, (issize_t)strlen(text), sdp_f_strict);
    d = sdp_session(p);
    taken = d != NULL && d->sdp_origin != NULL && d->sdp_connection != NULL && d->sdp_time != NULL;
    if (taken)
        show_all(s, d);
    sdp_parser_free(p);
    su_home_deinit(home);
    return taken;
}
#endif

/* Replaces digits, up to a blank or the end, by their octets and a 0; answers where the digits end. */
static char *read_digits(char *digits)
{
    size_t n = strcspn(digits, " \n");

    for (size_t i = 0; i < n / 2; i++) {
        unsigned octet;

        if (sscanf(digits + 2 * i, "%2x", &octet) != 1)
            exit(2);
        digits[i] = (char)octet;
    }
    digits[n / 2] = 0;
    return digits + n;
}

/* What is required of a message: nothing without media, nothing with some texts, otherwise everything. */
enum asked { WITHOUT, SOME, ALL };

static unsigned long counts[ALL + 1][2];

/* One message; prints the first that differs. */
static void judge(const char *written, const char *wanted)
{
    static struct shown s;
    enum asked asked = strstr(wanted, "\r\nm=") == NULL ? WITHOUT : regular(wanted) ? ALL : SOME;
    int taken, agree;

    s.octets = 0;
    s.text[0] = 0;
    taken = parse(written, &s);
    agree = taken && strcmp(s.text, wanted) == 0;
    if (asked == ALL && !agree && counts[ALL][0] == 0)
        printf("%s %s\nwant\n%sgot\n%s", PARSER, taken ? "shows another message" : "does not take a message", wanted,
               taken ? s.text : "nothing\n");
    counts[asked][agree]++;
}

int main(void)
{
    char *line = NULL;
    size_t room = 0;

    while (getline(&line, &room, stdin) > 0) {
        char *wanted = read_digits(line) + 1;

        read_digits(wanted);
        judge(line, wanted);
    }
    free(line);
    printf("%s: %lu messages with media, %lu agree\n", PARSER, counts[ALL][0] + counts[ALL][1], counts[ALL][1]);
    printf("  without media: %lu, %lu agree\n", counts[WITHOUT][0] + counts[WITHOUT][1], counts[WITHOUT][1]);
    printf("  skipped: %lu (%s); %lu agree\n", counts[SOME][0] + counts[SOME][1], SKIPPED, counts[SOME][1]);
    return counts[ALL][0] != 0 || counts[ALL][1] == 0;
}
