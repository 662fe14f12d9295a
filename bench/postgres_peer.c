/* Six columns of a certificate by OpenSSL, beside those of the extension: bench/postgres builds it, and no part of the extension does. */
#include "postgres.h"
#include "catalog/pg_type.h"
#include "fmgr.h"
#include "utils/array.h"
#include "utils/builtins.h"
#include "utils/timestamp.h"
#include <openssl/evp.h>
#include <openssl/sha.h>
#include <openssl/x509.h>
#include <openssl/x509v3.h>

PG_MODULE_MAGIC;

/* Begins a function: NULL where OpenSSL refuses the octets. */
#define PEER(name) \
	PG_FUNCTION_INFO_V1(name); \
	Datum \
	name(PG_FUNCTION_ARGS)

static X509 *
read_certificate(FunctionCallInfo fcinfo)
{
	bytea	   *octets = PG_GETARG_BYTEA_PP(0);
	const unsigned char *at = (const unsigned char *) VARDATA_ANY(octets);

	return d2i_X509(NULL, &at, VARSIZE_ANY_EXHDR(octets));
}

static bytea *
bytea_of(const void *octets, size_t length)
{
	bytea	   *value = (bytea *) palloc(VARHDRSZ + length);

	SET_VARSIZE(value, VARHDRSZ + length);
	memcpy(VARDATA(value), octets, length);
	return value;
}

PEER(peer_not_after)
{
	X509	   *certificate = read_certificate(fcinfo);
	struct tm	end;
	bool		read = certificate && ASN1_TIME_to_tm(X509_get0_notAfter(certificate), &end);

	X509_free(certificate);
	if (!read)
		PG_RETURN_NULL();
	PG_RETURN_TIMESTAMPTZ(time_t_to_timestamptz(timegm(&end)));
}

PEER(peer_subject)
{
	X509	   *certificate = read_certificate(fcinfo);
	BIO		   *out = BIO_new(BIO_s_mem());
	text	   *value = NULL;
	char	   *at;

	if (certificate && X509_NAME_print_ex(out, X509_get_subject_name(certificate), 0, XN_FLAG_ONELINE & ~ASN1_STRFLGS_ESC_MSB) >= 0)
	{
		long		length = BIO_get_mem_data(out, &at);

		value = cstring_to_text_with_len(at, (int) length);
	}
	BIO_free(out);
	X509_free(certificate);
	if (!value)
		PG_RETURN_NULL();
	PG_RETURN_TEXT_P(value);
}

PEER(peer_serial)
{
	X509	   *certificate = read_certificate(fcinfo);
	const ASN1_INTEGER *serial = certificate ? X509_get0_serialNumber(certificate) : NULL;
	bytea	   *value = serial ? bytea_of(ASN1_STRING_get0_data(serial), ASN1_STRING_length(serial)) : NULL;

	X509_free(certificate);
	if (!value)
		PG_RETURN_NULL();
	PG_RETURN_BYTEA_P(value);
}

PEER(peer_hosts)
{
	X509	   *certificate = read_certificate(fcinfo);
	GENERAL_NAMES *names = certificate ? X509_get_ext_d2i(certificate, NID_subject_alt_name, NULL, NULL) : NULL;
	int			count = names ? sk_GENERAL_NAME_num(names) : 0;
	Datum	   *hosts = palloc((count + 1) * sizeof(Datum));
	int			found = 0;

	for (int k = 0; k < count; k++)
	{
		const GENERAL_NAME *name = sk_GENERAL_NAME_value(names, k);

		if (name->type == GEN_DNS)
			hosts[found++] = PointerGetDatum(cstring_to_text_with_len((const char *) ASN1_STRING_get0_data(name->d.dNSName),
																	  ASN1_STRING_length(name->d.dNSName)));
	}
	GENERAL_NAMES_free(names);
	if (!certificate)
		PG_RETURN_NULL();
	X509_free(certificate);
	return PointerGetDatum(construct_array(hosts, found, TEXTOID, -1, false, TYPALIGN_INT));
}

PEER(peer_key_bits)
{
	X509	   *certificate = read_certificate(fcinfo);
	EVP_PKEY   *key = certificate ? X509_get0_pubkey(certificate) : NULL;
	int			bits = key ? EVP_PKEY_get_bits(key) : 0;

	X509_free(certificate);
	if (bits == 0)
		PG_RETURN_NULL();
	PG_RETURN_INT32(bits);
}

PEER(peer_spki_sha256)
{
	X509	   *certificate = read_certificate(fcinfo);
	unsigned char *octets = NULL;
	unsigned char hash[SHA256_DIGEST_LENGTH];
	int			length = certificate ? i2d_X509_PUBKEY(X509_get_X509_PUBKEY(certificate), &octets) : -1;

	X509_free(certificate);
	if (length < 0)
		PG_RETURN_NULL();
	SHA256(octets, length, hash);
	OPENSSL_free(octets);
	PG_RETURN_BYTEA_P(bytea_of(hash, sizeof hash));
}
