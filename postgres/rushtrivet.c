/* SQL functions over librushtrivet (include/rushtrivet.h). What each gives stands in docs/SCALE.md.
 *
 * Octets that are refused give NULL, or no rows: nothing that is in the data raises an error. Errors are want of memory and cancelled
 * queries. The library knows nothing of the server: it takes memory by malloc, gives it back before it returns, and calls nothing of the
 * server's, so no longjmp goes through it. Its rows and texts go into memory of palloc. */
#include "postgres.h"

#include "catalog/namespace.h"
#include "catalog/pg_type.h"
#include "fmgr.h"
#include "funcapi.h"
#include "lib/stringinfo.h"
#include "mb/pg_wchar.h"
#include "miscadmin.h"
#include "utils/array.h"
#include "utils/builtins.h"
#include "utils/fmgrprotos.h"
#include "utils/jsonb.h"
#include "utils/memutils.h"
#include "utils/numeric.h"
#include "utils/timestamp.h"
#include "utils/tuplestore.h"

#include <rushtrivet.h>

#if PG_VERSION_NUM < 150000
#error "PostgreSQL 15 or later"
#endif

PG_MODULE_MAGIC;

enum
{
	FIRST_EXTENSIONS = 24,		/* read at once; where there are more, a second time */
	KNOWN_WORDS = 16,
	KNOWN_OCTETS = 16
};

/* a text is a value of the server's: below 1 GB */
#define MOST_TEXT ((size_t) (MaxAllocSize - VARHDRSZ - 64))

/* what jsonb's offsets hold (JENTRY_OFFLENMASK), for a string and for all members of an object */
#define MOST_JSONB ((size_t) 0x0FFFFFFF)

/* more than any token takes in jsonb beside its text: a head, a sign, a number's digits and where they are aligned to */
#define JSONB_TOKEN 24

#define UNIX_SECONDS ((int64) (POSTGRES_EPOCH_JDATE - UNIX_EPOCH_JDATE) * SECS_PER_DAY)

static const uint8_t subject_alternative_name[] = {0x55, 0x1d, 0x11};	/* 2.5.29.17 */
static const uint8_t basic_constraints[] = {0x55, 0x1d, 0x13};	/* 2.5.29.19 */
static const uint8_t ec_public_key[] = {0x2a, 0x86, 0x48, 0xce, 0x3d, 0x02, 0x01};	/* 1.2.840.10045.2.1 */
static const uint8_t extended_key_usage[] = {0x55, 0x1d, 0x25};	/* 2.5.29.37 */
static const uint8_t rsassa_pss[] = {0x2a, 0x86, 0x48, 0x86, 0xf7, 0x0d, 0x01, 0x01, 0x0a};	/* 1.2.840.113549.1.1.10 */
static const uint8_t timestamp_list[] = {0x2b, 0x06, 0x01, 0x04, 0x01, 0xd6, 0x79, 0x02, 0x04, 0x02};	/* 1.3.6.1.4.1.11129.2.4.2 */

/* ---- octets and statuses */

/* Whether the octets were taken; want of memory is an error. */
static bool
taken(rtv_status status)
{
	if (status == RTV_OUT_OF_MEMORY)
		ereport(ERROR,
				(errcode(ERRCODE_OUT_OF_MEMORY),
				 errmsg("out of memory"),
				 errdetail("The X.509 reader was refused memory.")));
	CHECK_FOR_INTERRUPTS();
	return status == RTV_OK;
}

static void *
huge(size_t count, size_t size)
{
	if (count >= MaxAllocHugeSize / size)
		ereport(ERROR, (errcode(ERRCODE_OUT_OF_MEMORY), errmsg("out of memory")));
	return MemoryContextAllocHuge(CurrentMemoryContext, (count + 1) * size);
}

static rtv_bytes
octets_of(bytea *value)
{
	rtv_bytes	octets;

	octets.at = (const uint8_t *) VARDATA_ANY(value);
	octets.length = VARSIZE_ANY_EXHDR(value);
	return octets;
}

static bytea *
bytea_of(rtv_bytes octets)
{
	bytea	   *value = (bytea *) palloc(VARHDRSZ + octets.length);

	SET_VARSIZE(value, VARHDRSZ + octets.length);
	memcpy(VARDATA(value), octets.at, octets.length);
	return value;
}

static bool
is_octets(rtv_bytes window, const uint8_t *octets, size_t length)
{
	return window.length == length && memcmp(window.at, octets, length) == 0;
}

static Datum
sha256_of(rtv_bytes octets)
{
	return DirectFunctionCall1(sha256_bytea, PointerGetDatum(bytea_of(octets)));
}

/* Times that the type doesn't hold are its infinities, so that they are sorted as they should be. */
static TimestampTz
time_of(int64_t seconds)
{
	if (seconds < MIN_TIMESTAMP / USECS_PER_SEC + UNIX_SECONDS)
		return DT_NOBEGIN;
	if (seconds >= END_TIMESTAMP / USECS_PER_SEC + UNIX_SECONDS)
		return DT_NOEND;
	return (seconds - UNIX_SECONDS) * USECS_PER_SEC;
}

static TimestampTz
time_of_milliseconds(uint64_t milliseconds)
{
	if (milliseconds >= (uint64_t) (END_TIMESTAMP / 1000 + UNIX_SECONDS * 1000))
		return DT_NOEND;
	return ((int64) milliseconds - UNIX_SECONDS * 1000) * 1000;
}

/* ---- texts: UTF-8 of the library's in the encoding of the database */

/* A character that can't stand in a text of this database (NUL nowhere, others where the encoding hasn't got them) is shown by its number,
 * as \u{0}. `backslash` is how the text writes one. False where the text would be longer than a value can be. */
static bool
append_text(StringInfo out, const uint8_t *at, size_t length, const char *backslash)
{
	int			encoding = GetDatabaseEncoding();
	bool		as_it_is = encoding == PG_UTF8 || encoding == PG_SQL_ASCII;
	Oid			conversion = InvalidOid;
	size_t		more;

	if (length > MOST_TEXT - out->len)
		return false;
	if (as_it_is && memchr(at, 0, length) == NULL && pg_verify_mbstr(PG_UTF8, (const char *) at, (int) length, true))
	{
		appendBinaryStringInfo(out, (const char *) at, (int) length);
		return true;
	}
	if (!as_it_is)
		conversion = FindDefaultConversionProc(PG_UTF8, encoding);
	for (const uint8_t *end = at + length; at < end; at += more)
	{
		unsigned char converted[64];

		CHECK_FOR_INTERRUPTS();
		if (out->len > MOST_TEXT - 64)
			return false;
		more = pg_utf_mblen(at);
		if (more > (size_t) (end - at) || !pg_utf8_islegal(at, (int) more))
		{
			appendStringInfo(out, "%sx{%02x}", backslash, *at);
			more = 1;
		}
		else if (*at != 0 && (more == 1 || as_it_is))
			appendBinaryStringInfo(out, (const char *) at, (int) more);
		else if (*at != 0 && OidIsValid(conversion) &&
				 pg_do_encoding_conversion_buf(conversion, PG_UTF8, encoding, unconstify(unsigned char *, at), (int) more,
											   converted, sizeof converted, true) == (int) more)
			appendStringInfoString(out, (const char *) converted);
		else
			appendStringInfo(out, "%su{%x}", backslash, (unsigned) utf8_to_unicode(at));
	}
	return true;
}

/* NULL where it would be longer than a value can be. */
static text *
text_of(const uint8_t *at, size_t length)
{
	StringInfoData out;
	text	   *value = NULL;

	initStringInfo(&out);
	if (append_text(&out, at, length, "\\"))
		value = cstring_to_text_with_len(out.data, out.len);
	pfree(out.data);
	return value;
}

/* What a call writes of octets as a text. */
typedef struct
{
	uint8_t	   *at;
	size_t		length;
	uint8_t		small[512];
} Told;

typedef rtv_status (*Tells) (rtv_bytes octets, uint8_t *text, size_t room, size_t *length);

/* False where the octets are refused. */
static bool
tell(Told *told, Tells call, rtv_bytes octets)
{
	told->at = told->small;
	told->length = 0;
	if (!taken(call(octets, told->at, sizeof told->small, &told->length)))
		return false;
	if (told->length < sizeof told->small)
		return true;
	told->at = huge(told->length, 1);
	return taken(call(octets, told->at, told->length + 1, &told->length));
}

static rtv_status
tell_name(rtv_bytes name, uint8_t *text, size_t room, size_t *length)
{
	size_t		at = 0;

	return rtv_name_text(name.at, name.length, text, room, length, &at);
}

static rtv_status
tell_oid(rtv_bytes oid, uint8_t *text, size_t room, size_t *length)
{
	return rtv_oid_text(oid.at, oid.length, text, room, length);
}

static rtv_status
tell_messages(rtv_bytes octets, uint8_t *text, size_t room, size_t *length)
{
	uint32_t	sound = 0;
	size_t		at = 0;

	return rtv_validate(octets.at, octets.length, text, room, length, &sound, &at);
}

static text *
oid_text(rtv_bytes oid)
{
	Told		told;

	return tell(&told, tell_oid, oid) ? text_of(told.at, told.length) : NULL;
}

/* ---- the report's line (docs/REPORT.md): for what the library has no call of its own for */

typedef struct
{
	uint8_t    *at;				/* NULL where it is longer than was asked for */
	const uint8_t *end;
	size_t		length;
} Line;

static Line
line_of(rtv_bytes octets, uint32_t kind, size_t most)
{
	size_t		room = Min(8 * octets.length + 2048, (size_t) 1 << 20);
	Line		line;

	for (;;)
	{
		rtv_status	status;

		line.at = huge(room, 1);
		line.length = 0;
		status = rtv_json(octets.at, octets.length, kind, false, line.at, room, &line.length);
		if (status != RTV_NOT_FOUND)
			taken(status);
		if (line.length < room)
			break;
		pfree(line.at);
		line.at = NULL;
		if (line.length > most)
			break;
		room = line.length + 1;
	}
	line.end = line.at ? line.at + line.length : NULL;
	return line;
}

/* Behind the string at a quote. */
static const uint8_t *
behind_string(const uint8_t *at, const uint8_t *end)
{
	for (at++; at < end && *at != '"'; at++)
		if (*at == '\\')
			at++;
	return at < end ? at + 1 : end;
}

/* Behind the value that begins here. The line has no spaces. */
static const uint8_t *
behind_value(const uint8_t *at, const uint8_t *end)
{
	int			depth = 0;

	while (at < end)
	{
		if (*at == '"')
			at = behind_string(at, end);
		else
		{
			if (*at == '{' || *at == '[')
				depth++;
			else if (*at == '}' || *at == ']')
				depth--;
			at++;
		}
		if (depth == 0 && (at == end || *at == ',' || *at == '}' || *at == ']'))
			return at;
	}
	return end;
}

/* The next member of an object or item of an array behind this value, or NULL. */
static const uint8_t *
next_value(const uint8_t *at, const uint8_t *end)
{
	at = behind_value(at, end);
	return at < end && *at == ',' ? at + 1 : NULL;
}

/* The value of a member of the object that begins here, or NULL. */
static const uint8_t *
member(const uint8_t *at, const uint8_t *end, const char *key)
{
	size_t		length = strlen(key);

	if (!at || at + 1 >= end || *at != '{' || at[1] != '"')
		return NULL;
	for (at++; at; at = next_value(at, end))
	{
		const uint8_t *value = behind_string(at, end);

		if (value >= end)
			return NULL;
		if ((size_t) (value - at) == length + 2 && memcmp(at + 1, key, length) == 0)
			return value + 1;
		at = value + 1;
	}
	return NULL;
}

/* The text that a string spells; NULL where it is none. */
static text *
string_text(const uint8_t *at, const uint8_t *end)
{
	const uint8_t *close;
	uint8_t    *octets;
	size_t		length = 0;
	text	   *value;

	if (!at || *at != '"')
		return NULL;
	close = behind_string(at, end) - 1;
	octets = huge(close - at, 1);
	for (at++; at < close; at++)
	{
		uint8_t		octet = *at;

		if (octet == '\\')
		{
			octet = *++at;
			switch (octet)
			{
				case 'b':
					octet = '\b';
					break;
				case 'f':
					octet = '\f';
					break;
				case 'n':
					octet = '\n';
					break;
				case 'r':
					octet = '\r';
					break;
				case 't':
					octet = '\t';
					break;
				case 'u':		/* the writer uses it below 32 alone */
					octet = (uint8_t) strtoul(pnstrdup((const char *) at + 3, 2), NULL, 16);
					at += 4;
					break;
			}
		}
		octets[length++] = octet;
	}
	value = text_of(octets, length);
	pfree(octets);
	return value;
}

/* The text of a member of a member of a certificate's line; NULL where it is none. */
static text *
text_in_line(rtv_bytes octets, const char *part, const char *key)
{
	Line		line = line_of(octets, RTV_A_CERTIFICATE, MaxAllocHugeSize - 1);
	text	   *value = string_text(member(member(line.at, line.end, part), line.end, key), line.end);

	pfree(line.at);
	return value;
}

/* The line in the database's encoding, as jsonb takes it: the character NUL, which jsonb can't hold, becomes the text \u{0}. False where
 * it is longer than jsonb can be. */
static bool
line_for_jsonb(const Line *line, StringInfo out)
{
	const uint8_t *at = line->at;
	size_t		tokens = 0;

	while (at < line->end)
	{
		const uint8_t *from = at;

		if (*at != '"')
		{
			while (at < line->end && *at != '"')
				tokens += strchr("{[,:", *at++) != NULL;
			appendBinaryStringInfo(out, (const char *) from, (int) (at - from));
			continue;
		}
		appendStringInfoChar(out, '"');
		for (at++; at < line->end && *at != '"';)
		{
			for (from = at; at < line->end && *at != '"' && *at != '\\';)
				at++;
			if (!append_text(out, from, at - from, "\\\\") || out->len > MOST_JSONB)
				return false;
			if (*at != '\\')
				continue;
			if (strncmp((const char *) at, "\\u0000", 6) == 0)
			{
				appendStringInfoString(out, "\\\\u{0}");
				at += 6;
			}
			else
			{
				appendBinaryStringInfo(out, (const char *) at, 2);
				at += 2;
			}
		}
		appendStringInfoChar(out, '"');
		at++;
		CHECK_FOR_INTERRUPTS();
	}
	return out->len + tokens * JSONB_TOKEN < MOST_JSONB;
}

PG_FUNCTION_INFO_V1(x509_json);
Datum
x509_json(PG_FUNCTION_ARGS)
{
	rtv_bytes	octets = octets_of(PG_GETARG_BYTEA_PP(0));
	Line		line = line_of(octets, RTV_ANY, MOST_JSONB);
	StringInfoData out;

	initStringInfo(&out);
	if (!line.at || !line_for_jsonb(&line, &out))
	{
		resetStringInfo(&out);
		appendStringInfo(&out, "{\"report\":1,\"kind\":\"too_long\",\"length\":%zu,\"line_length\":%zu}", octets.length, line.length);
	}
	if (line.at)
		pfree(line.at);
	return DirectFunctionCall1(jsonb_in, CStringGetDatum(out.data));
}

/* ---- certificates */

typedef struct
{
	rtv_bytes	octets;
	rtv_certificate it;
	rtv_extension *extensions;
	rtv_extension first[FIRST_EXTENSIONS];
} Certificate;

/* The certificate with the first of its extensions, as far as there is room, at most FIRST_EXTENSIONS. False where it is none. */
static bool
read_front(FunctionCallInfo fcinfo, Certificate *c, size_t room)
{
	static const rtv_certificate none = RTV_CERTIFICATE_INIT;
	size_t		at = 0;

	c->octets = octets_of(PG_GETARG_BYTEA_PP(0));
	c->it = none;
	c->extensions = c->first;
	rtv_init_extensions(c->first, room);
	return taken(rtv_read_certificate(c->octets.at, c->octets.length, false, false, &c->it, c->first, room, &at));
}

/* The certificate without its extensions. */
static bool
read_fields(FunctionCallInfo fcinfo, Certificate *c)
{
	return read_front(fcinfo, c, 0);
}

/* The certificate with all its extensions. */
static bool
read_certificate(FunctionCallInfo fcinfo, Certificate *c)
{
	size_t		count,
				at = 0;

	if (!read_front(fcinfo, c, FIRST_EXTENSIONS))
		return false;
	count = c->it.extension_count;
	if (count <= FIRST_EXTENSIONS)
		return true;
	c->extensions = huge(count, sizeof(rtv_extension));
	rtv_init_extensions(c->extensions, count);
	return taken(rtv_read_certificate(c->octets.at, c->octets.length, false, false, &c->it, c->extensions, count, &at));
}

/* The only extension with this identifier; of two neither. */
static const rtv_extension *
only_extension(const Certificate *c, const uint8_t *oid, size_t length)
{
	const rtv_extension *only = NULL;

	for (size_t k = 0; k < c->it.extension_count; k++)
	{
		if (!is_octets(c->extensions[k].oid, oid, length))
			continue;
		if (only)
			return NULL;
		only = &c->extensions[k];
	}
	return only;
}

PG_FUNCTION_INFO_V1(x509_is_certificate);
Datum
x509_is_certificate(PG_FUNCTION_ARGS)
{
	Certificate c;

	PG_RETURN_BOOL(read_fields(fcinfo, &c));
}

PG_FUNCTION_INFO_V1(x509_refusal);
Datum
x509_refusal(PG_FUNCTION_ARGS)
{
	rtv_bytes	octets = octets_of(PG_GETARG_BYTEA_PP(0));
	rtv_certificate it = RTV_CERTIFICATE_INIT;
	rtv_extension none;
	uint8_t		word[64];
	size_t		at = 0;
	rtv_status	status;

	rtv_init_extensions(&none, 1);
	status = rtv_read_certificate(octets.at, octets.length, false, false, &it, &none, 0, &at);
	if (taken(status))
		PG_RETURN_NULL();
	rtv_word(status, word, sizeof word);
	PG_RETURN_TEXT_P(cstring_to_text(psprintf("%s at octet %zu", (char *) word, at)));
}

/* A text, or NULL. */
static Datum
text_or_null(FunctionCallInfo fcinfo, text *value)
{
	if (!value)
		PG_RETURN_NULL();
	PG_RETURN_TEXT_P(value);
}

/* A name's text as the report has it, where octets that are no text are shown in hex; rtv_name_text() says of such names only that they
 * can't be shown, by a text that begins as no name does. `field` is the name's place in the struct, `key` that in the line. */
static Datum
name_column(FunctionCallInfo fcinfo, size_t field, const char *key)
{
	static const char unread[] = "<X509Error:";
	Certificate c;
	Told		told;

	if (!read_fields(fcinfo, &c))
		PG_RETURN_NULL();
	if (tell(&told, tell_name, *(const rtv_bytes *) ((const char *) &c.it + field)) &&
		(told.length < sizeof unread || memcmp(told.at, unread, sizeof unread - 1) != 0))
		return text_or_null(fcinfo, text_of(told.at, told.length));
	return text_or_null(fcinfo, text_in_line(c.octets, key, "text"));
}

PG_FUNCTION_INFO_V1(x509_subject);
Datum
x509_subject(PG_FUNCTION_ARGS)
{
	return name_column(fcinfo, offsetof(rtv_certificate, subject), "subject");
}

PG_FUNCTION_INFO_V1(x509_issuer);
Datum
x509_issuer(PG_FUNCTION_ARGS)
{
	return name_column(fcinfo, offsetof(rtv_certificate, issuer), "issuer");
}

PG_FUNCTION_INFO_V1(x509_serial);
Datum
x509_serial(PG_FUNCTION_ARGS)
{
	Certificate c;

	if (!read_fields(fcinfo, &c))
		PG_RETURN_NULL();
	PG_RETURN_BYTEA_P(bytea_of(c.it.serial));
}

/* The number of an INTEGER's contents in decimal; NULL where it may have more digits than numeric holds, 131,072. */
static char *
decimal_of(rtv_bytes integer)
{
	bool		negative = (integer.at[0] & 0x80) != 0;
	uint8_t    *octets = (uint8_t *) palloc(integer.length);
	uint32	   *limbs;			/* of nine digits, the lowest first */
	size_t		count = 0;
	size_t		first = 0;
	int			carry = 1;
	StringInfoData out;

	memcpy(octets, integer.at, integer.length);
	for (size_t k = integer.length; negative && k > 0; k--)
	{
		int			octet = (octets[k - 1] ^ 0xff) + carry;

		octets[k - 1] = (uint8_t) octet;
		carry = octet >> 8;
	}
	while (first < integer.length && octets[first] == 0)
		first++;
	/* 256 ^ 54426 is below 10 ^ 131072, the next power isn't */
	if (integer.length - first > 54426)
		return NULL;
	limbs = (uint32 *) palloc(((integer.length - first) / 3 + 4) * sizeof(uint32));
	for (size_t k = first; k < integer.length;)
	{
		uint64		more = 0;

		/* four octets, or at first as many as leave whole fours */
		do
			more = more << 8 | octets[k++];
		while ((integer.length - k) % 4 != 0);
		for (size_t n = 0; n < count; n++)
		{
			more += (uint64) limbs[n] << 32;
			limbs[n] = (uint32) (more % 1000000000);
			more /= 1000000000;
		}
		for (; more; more /= 1000000000)
			limbs[count++] = (uint32) (more % 1000000000);
		CHECK_FOR_INTERRUPTS();
	}
	initStringInfo(&out);
	appendStringInfo(&out, "%s%u", negative ? "-" : "", count ? limbs[count - 1] : 0);
	for (size_t n = count; n > 1; n--)
		appendStringInfo(&out, "%09u", limbs[n - 2]);
	return out.data;
}

PG_FUNCTION_INFO_V1(x509_serial_number);
Datum
x509_serial_number(PG_FUNCTION_ARGS)
{
	Certificate c;
	char	   *digits;

	if (!read_fields(fcinfo, &c) || c.it.serial.length == 0)
		PG_RETURN_NULL();
	digits = decimal_of(c.it.serial);
	if (!digits)
		PG_RETURN_NULL();
	return DirectFunctionCall3(numeric_in, CStringGetDatum(digits), ObjectIdGetDatum(InvalidOid), Int32GetDatum(-1));
}

/* `field` is the time's place in the struct. */
static Datum
time_column(FunctionCallInfo fcinfo, size_t field)
{
	Certificate c;

	if (!read_fields(fcinfo, &c))
		PG_RETURN_NULL();
	PG_RETURN_TIMESTAMPTZ(time_of(*(const int64_t *) ((const char *) &c.it + field)));
}

PG_FUNCTION_INFO_V1(x509_not_before);
Datum
x509_not_before(PG_FUNCTION_ARGS)
{
	return time_column(fcinfo, offsetof(rtv_certificate, not_before));
}

PG_FUNCTION_INFO_V1(x509_not_after);
Datum
x509_not_after(PG_FUNCTION_ARGS)
{
	return time_column(fcinfo, offsetof(rtv_certificate, not_after));
}

/* `field` is the place in the struct of what is hashed. */
static Datum
sha256_column(FunctionCallInfo fcinfo, size_t field)
{
	Certificate c;

	if (!read_fields(fcinfo, &c))
		PG_RETURN_NULL();
	return sha256_of(*(const rtv_bytes *) ((const char *) &c.it + field));
}

PG_FUNCTION_INFO_V1(x509_sha256);
Datum
x509_sha256(PG_FUNCTION_ARGS)
{
	return sha256_column(fcinfo, offsetof(rtv_certificate, whole));
}

PG_FUNCTION_INFO_V1(x509_spki_sha256);
Datum
x509_spki_sha256(PG_FUNCTION_ARGS)
{
	return sha256_column(fcinfo, offsetof(rtv_certificate, key_info));
}

/* ---- keys and signatures */

/* Words that the line says of algorithms, by the contents of their identifiers. */
typedef struct
{
	size_t		count;
	struct
	{
		uint8_t		oid[KNOWN_OCTETS];
		size_t		length;
		text	   *word;			/* NULL where the line has null */
	}			known[KNOWN_WORDS];
} Words;

/* A word of the certificate's line that goes by this identifier alone: the first such words are kept as long as the query runs. */
static text *
word_by(FunctionCallInfo fcinfo, const Certificate *c, rtv_bytes oid, const char *part, const char *key)
{
	MemoryContext kept = fcinfo->flinfo->fn_mcxt,
				outside;
	Words	   *words = fcinfo->flinfo->fn_extra;
	text	   *word;

	if (!words)
		words = fcinfo->flinfo->fn_extra = MemoryContextAllocZero(kept, sizeof *words);
	for (size_t k = 0; k < words->count; k++)
		if (is_octets(oid, words->known[k].oid, words->known[k].length))
			return words->known[k].word;
	if (oid.length > KNOWN_OCTETS || words->count == KNOWN_WORDS)
		return text_in_line(c->octets, part, key);
	outside = MemoryContextSwitchTo(kept);
	word = text_in_line(c->octets, part, key);
	MemoryContextSwitchTo(outside);
	memcpy(words->known[words->count].oid, oid.at, oid.length);
	words->known[words->count].length = oid.length;
	words->known[words->count++].word = word;
	return word;
}

PG_FUNCTION_INFO_V1(x509_key_kind);
Datum
x509_key_kind(PG_FUNCTION_ARGS)
{
	Certificate c;

	if (!read_fields(fcinfo, &c))
		PG_RETURN_NULL();
	return text_or_null(fcinfo, word_by(fcinfo, &c, c.it.key_algorithm, "key", "kind"));
}

/* Of RSASSA-PSS the parameters say the hash, of all others the identifier. */
PG_FUNCTION_INFO_V1(x509_signature_hash);
Datum
x509_signature_hash(PG_FUNCTION_ARGS)
{
	static const char part[] = "signature_algorithm";
	Certificate c;

	if (!read_fields(fcinfo, &c))
		PG_RETURN_NULL();
	if (is_octets(c.it.signature_algorithm, rsassa_pss, sizeof rsassa_pss))
		return text_or_null(fcinfo, text_in_line(c.octets, part, "hash"));
	return text_or_null(fcinfo, word_by(fcinfo, &c, c.it.signature_algorithm, part, "hash"));
}

/* The bits of a coordinate on the curve that a key names by an OBJECT IDENTIFIER, of the curves that most keys are on; else 0. */
static size_t
curve_bits(rtv_bytes key_info)
{
	static const struct
	{
		uint8_t		oid[8];
		size_t		length;
		size_t		bits;
	}			curves[] = {
		{{0x2a, 0x86, 0x48, 0xce, 0x3d, 0x03, 0x01, 0x07}, 8, 256},	/* secp256r1 */
		{{0x2b, 0x81, 0x04, 0x00, 0x22}, 5, 384},	/* secp384r1 */
		{{0x2b, 0x81, 0x04, 0x00, 0x23}, 5, 521},	/* secp521r1 */
	};
	rtv_key_info info = RTV_KEY_INFO_INIT;
	size_t		at = 0;

	if (!taken(rtv_read_key_info(key_info.at, key_info.length, &info, &at)) || info.parameters_tag != 6)
		return 0;
	for (int k = 0; k < lengthof(curves); k++)
		/* (the tag is told without its class: the octets in front of the contents are the header of no other) */
		if (is_octets(info.parameters, curves[k].oid, curves[k].length) &&
			info.parameters.at[-2] == 6 && info.parameters.at[-1] == curves[k].length)
			return curves[k].bits;
	return 0;
}

/* As the report has it: of a key on a curve that is known, the curve's; the library's struct has that of the point's octets, 528 for
 * secp521r1. The report also knows the size of more kinds of keys, as of RSA-PSS: what isn't known here, the line says. */
PG_FUNCTION_INFO_V1(x509_key_bits);
Datum
x509_key_bits(PG_FUNCTION_ARGS)
{
	Certificate c;
	size_t		bits;

	if (!read_fields(fcinfo, &c))
		PG_RETURN_NULL();
	bits = is_octets(c.it.key_algorithm, ec_public_key, sizeof ec_public_key) ? curve_bits(c.it.key_info) : c.it.key_size;
	if (bits == 0)
	{
		Line		line = line_of(c.octets, RTV_A_CERTIFICATE, MaxAllocHugeSize - 1);
		const uint8_t *size = member(member(line.at, line.end, "key"), line.end, "size");

		if (!size || *size < '0' || *size > '9')
			PG_RETURN_NULL();
		bits = strtoul((const char *) size, NULL, 10);
		pfree(line.at);
	}
	if (bits > PG_INT32_MAX)
		PG_RETURN_NULL();
	PG_RETURN_INT32((int32) bits);
}

/* The rows of a set, each a copy of the values. */
static void
put_row(FunctionCallInfo fcinfo, Datum *values, bool *nulls)
{
	ReturnSetInfo *set = (ReturnSetInfo *) fcinfo->resultinfo;

	tuplestore_putvalues(set->setResult, set->setDesc, values, nulls);
	CHECK_FOR_INTERRUPTS();
}

/* The row of a line: it is a level, a colon, a space and a message. */
static void
put_message(FunctionCallInfo fcinfo, const uint8_t *line, const uint8_t *end)
{
	const uint8_t *colon = memchr(line, ':', end - line);
	Datum		values[2];
	bool		nulls[2] = {false, false};
	text	   *message;

	if (!colon || end - colon < 2)
		return;
	message = text_of(colon + 2, end - colon - 2);
	values[0] = PointerGetDatum(cstring_to_text_with_len((const char *) line, (int) (colon - line)));
	values[1] = PointerGetDatum(message);
	nulls[1] = message == NULL;
	put_row(fcinfo, values, nulls);
}

PG_FUNCTION_INFO_V1(x509_messages);
Datum
x509_messages(PG_FUNCTION_ARGS)
{
	Told		told;
	const uint8_t *line,
			   *end;

	InitMaterializedSRF(fcinfo, 0);
	if (!tell(&told, tell_messages, octets_of(PG_GETARG_BYTEA_PP(0))))
		return (Datum) 0;
	line = told.at;
	while ((end = memchr(line, '\n', told.at + told.length - line)) != NULL)
	{
		put_message(fcinfo, line, end);
		line = end + 1;
	}
	return (Datum) 0;
}

/* ---- values of extensions */

PG_FUNCTION_INFO_V1(x509_extension);
Datum
x509_extension(PG_FUNCTION_ARGS)
{
	text	   *wanted = PG_GETARG_TEXT_PP(1);
	const rtv_extension *only = NULL;
	Certificate c;

	if (!read_certificate(fcinfo, &c))
		PG_RETURN_NULL();
	for (size_t k = 0; k < c.it.extension_count; k++)
	{
		text	   *oid = oid_text(c.extensions[k].oid);
		bool		same = oid && VARSIZE_ANY_EXHDR(oid) == VARSIZE_ANY_EXHDR(wanted) &&
		memcmp(VARDATA_ANY(oid), VARDATA_ANY(wanted), VARSIZE_ANY_EXHDR(wanted)) == 0;

		if (oid)
			pfree(oid);
		if (!same)
			continue;
		if (only)
			PG_RETURN_NULL();
		only = &c.extensions[k];
	}
	if (!only)
		PG_RETURN_NULL();
	PG_RETURN_BYTEA_P(bytea_of(only->value));
}

PG_FUNCTION_INFO_V1(x509_is_ca);
Datum
x509_is_ca(PG_FUNCTION_ARGS)
{
	rtv_basic_constraints constraints = {0, 0, 0};
	const rtv_extension *extension;
	size_t		at = 0;
	Certificate c;

	if (!read_certificate(fcinfo, &c))
		PG_RETURN_NULL();
	extension = only_extension(&c, basic_constraints, sizeof basic_constraints);
	PG_RETURN_BOOL(extension &&
				   taken(rtv_read_basic_constraints(extension->value.at, extension->value.length, &constraints, &at)) &&
				   constraints.ca == 1);
}

/* Texts on the way into an array. */
typedef struct
{
	Datum	   *texts;
	size_t		count;
	size_t		room;
	size_t		octets;			/* of the array */
	bool		too_long;
} Texts;

static void
add_text(Texts *texts, text *value)
{
	if (value)
		texts->octets += INTALIGN(VARSIZE(value));
	if (!value || texts->octets > MOST_TEXT || texts->count >= MaxAllocSize / sizeof(Datum) - 1)
	{
		texts->too_long = true;
		return;
	}
	if (texts->count == texts->room)
	{
		texts->room = Max(16, 2 * texts->room);
		texts->texts = texts->texts ? repalloc_huge(texts->texts, texts->room * sizeof(Datum)) : palloc(texts->room * sizeof(Datum));
	}
	texts->texts[texts->count++] = PointerGetDatum(value);
}

static void
add_octets(Texts *texts, const void *at, size_t length)
{
	if (!texts->too_long)
		add_text(texts, text_of(at, length));
}

static Datum
array_of(const Texts *texts)
{
	return PointerGetDatum(construct_array(texts->texts, (int) texts->count, TEXTOID, -1, false, TYPALIGN_INT));
}

/* An address of 4 or 16 octets, as the report writes it (RFC 5952, section 4.2). */
static void
append_address(StringInfo out, const uint8_t *at, size_t length)
{
	static const uint8_t mapped[] = {0, 0, 0, 0, 0, 0, 0, 0, 0, 0, 0xff, 0xff};
	int			start = 0,
				longest = 0;

	if (length == 16 && memcmp(at, mapped, sizeof mapped) == 0)
	{
		appendStringInfoString(out, "::ffff:");
		at += 12;
		length = 4;
	}
	if (length == 4)
	{
		appendStringInfo(out, "%u.%u.%u.%u", at[0], at[1], at[2], at[3]);
		return;
	}
	for (int k = 0; k < 8; k++)
	{
		int			run = 0;

		while (k + run < 8 && at[2 * (k + run)] == 0 && at[2 * (k + run) + 1] == 0)
			run++;
		if (run > longest)
		{
			start = k;
			longest = run;
		}
	}
	for (int k = 0; k < 8; k++)
	{
		if (longest > 1 && k == start)
		{
			appendStringInfoString(out, "::");
			k += longest - 1;
			continue;
		}
		if (k > 0 && !(longest > 1 && k == start + longest))
			appendStringInfoChar(out, ':');
		appendStringInfo(out, "%x", at[2 * k] << 8 | at[2 * k + 1]);
	}
}

/* What a name says of a host, as the report's `hosts` has it: a DNS name, or an address; twice as many octets are an address and its mask. */
static void
add_host(Texts *hosts, const rtv_general_name *name)
{
	StringInfoData out;
	size_t		length = name->value.length;

	if (name->tag == 2 && name->readable)
		add_octets(hosts, name->value.at, length);
	if (name->tag != 7 || !name->readable || (length != 4 && length != 8 && length != 16 && length != 32))
		return;
	initStringInfo(&out);
	append_address(&out, name->value.at, length > 4 && length != 16 ? length / 2 : length);
	if (length == 8 || length == 32)
	{
		appendStringInfoChar(&out, '/');
		append_address(&out, name->value.at + length / 2, length / 2);
	}
	add_octets(hosts, out.data, out.len);
	pfree(out.data);
}

/* The hosts of all alternative names of the subject, in order. False where it is no certificate, or an array of them is too long. */
static bool
read_hosts(FunctionCallInfo fcinfo, Texts *hosts)
{
	Certificate c;

	memset(hosts, 0, sizeof *hosts);
	hosts->octets = 64;
	if (!read_certificate(fcinfo, &c))
		return false;
	for (size_t k = 0; k < c.it.extension_count; k++)
	{
		rtv_bytes	value = c.extensions[k].value;
		rtv_general_name small[16];
		rtv_general_name *names = small;
		size_t		count = 0,
					at = 0;

		if (!is_octets(c.extensions[k].oid, subject_alternative_name, sizeof subject_alternative_name))
			continue;
		rtv_init_general_names(small, lengthof(small));
		if (!taken(rtv_read_general_names(value.at, value.length, small, lengthof(small), &count, &at)))
			continue;
		if (count > lengthof(small))
		{
			names = huge(count, sizeof *names);
			rtv_init_general_names(names, count);
			taken(rtv_read_general_names(value.at, value.length, names, count, &count, &at));
		}
		for (size_t n = 0; n < count; n++)
			add_host(hosts, &names[n]);
		if (names != small)
			pfree(names);
	}
	return !hosts->too_long;
}

PG_FUNCTION_INFO_V1(x509_hosts_array);
Datum
x509_hosts_array(PG_FUNCTION_ARGS)
{
	Texts		hosts;

	if (!read_hosts(fcinfo, &hosts))
		PG_RETURN_NULL();
	return array_of(&hosts);
}

PG_FUNCTION_INFO_V1(x509_hosts);
Datum
x509_hosts(PG_FUNCTION_ARGS)
{
	Texts		hosts;
	bool		null = false;

	InitMaterializedSRF(fcinfo, MAT_SRF_USE_EXPECTED_DESC);
	if (read_hosts(fcinfo, &hosts))
		for (size_t k = 0; k < hosts.count; k++)
			put_row(fcinfo, &hosts.texts[k], &null);
	return (Datum) 0;
}

PG_FUNCTION_INFO_V1(x509_extended_usages);
Datum
x509_extended_usages(PG_FUNCTION_ARGS)
{
	static const rtv_extended_key_usage no_usage = {0};
	rtv_extended_key_usage usage = no_usage;
	rtv_bytes	small[16];
	rtv_bytes  *others = small;
	const rtv_extension *extension;
	size_t		at = 0;
	Certificate c;
	Texts		usages = {0};

	if (!read_certificate(fcinfo, &c))
		PG_RETURN_NULL();
	extension = only_extension(&c, extended_key_usage, sizeof extended_key_usage);
	rtv_init_bytes(small, lengthof(small));
	if (!extension ||
		!taken(rtv_read_extended_key_usage(extension->value.at, extension->value.length, &usage, small, lengthof(small), &at)))
		PG_RETURN_NULL();
	if (usage.other_count > lengthof(small))
	{
		others = huge(usage.other_count, sizeof *others);
		rtv_init_bytes(others, usage.other_count);
		taken(rtv_read_extended_key_usage(extension->value.at, extension->value.length, &usage, others, usage.other_count, &at));
	}
	{
		const struct
		{
			uint32_t	named;
			const char *word;
		}			words[] = {
			{usage.any, "any"},
			{usage.server_auth, "server_auth"},
			{usage.client_auth, "client_auth"},
			{usage.code_signing, "code_signing"},
			{usage.email_protection, "email_protection"},
			{usage.time_stamping, "time_stamping"},
			{usage.ocsp_signing, "ocsp_signing"},
		};

		for (int k = 0; k < lengthof(words); k++)
			if (words[k].named)
				add_octets(&usages, words[k].word, strlen(words[k].word));
	}
	for (size_t k = 0; k < usage.other_count && !usages.too_long; k++)
		add_text(&usages, oid_text(others[k]));
	if (usages.too_long)
		PG_RETURN_NULL();
	return array_of(&usages);
}

PG_FUNCTION_INFO_V1(x509_scts);
Datum
x509_scts(PG_FUNCTION_ARGS)
{
	rtv_timestamp small[8];
	rtv_timestamp *rows = small;
	const rtv_extension *extension;
	size_t		count = 0,
				at = 0;
	Certificate c;

	InitMaterializedSRF(fcinfo, 0);
	if (!read_certificate(fcinfo, &c))
		return (Datum) 0;
	extension = only_extension(&c, timestamp_list, sizeof timestamp_list);
	rtv_init_timestamps(small, lengthof(small));
	if (!extension || !taken(rtv_read_timestamps(extension->value.at, extension->value.length, small, lengthof(small), &count, &at)))
		return (Datum) 0;
	if (count > lengthof(small))
	{
		rows = huge(count, sizeof *rows);
		rtv_init_timestamps(rows, count);
		taken(rtv_read_timestamps(extension->value.at, extension->value.length, rows, count, &count, &at));
	}
	for (size_t k = 0; k < count; k++)
	{
		bytea	   *log_id = bytea_of(rows[k].log_id);
		Datum		values[2] = {PointerGetDatum(log_id), TimestampTzGetDatum(time_of_milliseconds(rows[k].timestamp))};
		bool		nulls[2] = {false, false};

		put_row(fcinfo, values, nulls);
		pfree(log_id);
	}
	return (Datum) 0;
}

/* ---- lists of revoked certificates */

/* Why a certificate was revoked, in the report's words (RFC 5280, 5.3.1); NULL where the entry doesn't say it. */
static text *
reason_of(const rtv_revoked *entry)
{
	static const char *const words[] = {
		"unspecified", "key_compromise", "ca_compromise", "affiliation_changed", "superseded", "cessation_of_operation",
		"certificate_hold", NULL, "remove_from_crl", "privilege_withdrawn", "aa_compromise"
	};

	if (!entry->has_reason)
		return NULL;
	return cstring_to_text(entry->reason < lengthof(words) && words[entry->reason] ? words[entry->reason] : "unknown");
}

PG_FUNCTION_INFO_V1(x509_crl_entries);
Datum
x509_crl_entries(PG_FUNCTION_ARGS)
{
	rtv_bytes	octets = octets_of(PG_GETARG_BYTEA_PP(0));
	rtv_list	list = RTV_LIST_INIT;
	rtv_extension none;
	rtv_revoked *rows;
	size_t		room = octets.length / 35 + 1;	/* entries are seldom shorter: with that room one reading does */
	size_t		at = 0;
	MemoryContext each;

	InitMaterializedSRF(fcinfo, 0);
	rtv_init_extensions(&none, 1);
	for (;;)
	{
		rows = huge(room, sizeof *rows);
		rtv_init_revoked(rows, room);
		CHECK_FOR_INTERRUPTS();
		if (!taken(rtv_read_list(octets.at, octets.length, false, &list, rows, room, &none, 0, &at)))
			return (Datum) 0;
		if (list.revoked_count <= room)
			break;
		pfree(rows);
		room = list.revoked_count;
	}
	each = AllocSetContextCreate(CurrentMemoryContext, "entry of a list", ALLOCSET_SMALL_SIZES);
	for (size_t k = 0; k < list.revoked_count; k++)
	{
		MemoryContext outside = MemoryContextSwitchTo(each);
		text	   *reason = reason_of(&rows[k]);
		Datum		values[3] = {PointerGetDatum(bytea_of(rows[k].serial)), TimestampTzGetDatum(time_of(rows[k].revocation_date)), PointerGetDatum(reason)};
		bool		nulls[3] = {false, false, reason == NULL};

		put_row(fcinfo, values, nulls);
		MemoryContextSwitchTo(outside);
		MemoryContextReset(each);
	}
	MemoryContextDelete(each);
	pfree(rows);
	return (Datum) 0;
}

PG_FUNCTION_INFO_V1(x509_crl_find);
Datum
x509_crl_find(PG_FUNCTION_ARGS)
{
	rtv_bytes	octets = octets_of(PG_GETARG_BYTEA_PP(0));
	rtv_bytes	serial = octets_of(PG_GETARG_BYTEA_PP(1));
	rtv_revoked row = RTV_REVOKED_INIT;
	size_t		position = 0,
				at = 0;
	TupleDesc	desc;
	Datum		values[3];
	bool		nulls[3] = {false, false, false};
	text	   *reason;

	if (get_call_result_type(fcinfo, NULL, &desc) != TYPEFUNC_COMPOSITE)
		elog(ERROR, "return type must be a row type");
	if (!taken(rtv_find_revoked(octets.at, octets.length, serial.at, serial.length, &row, &position, &at)))
		PG_RETURN_NULL();
	reason = reason_of(&row);
	values[0] = TimestampTzGetDatum(time_of(row.revocation_date));
	values[1] = PointerGetDatum(reason);
	nulls[1] = reason == NULL;
	values[2] = Int64GetDatum((int64) position);
	PG_RETURN_DATUM(HeapTupleGetDatum(heap_form_tuple(BlessTupleDesc(desc), values, nulls)));
}
