/* The keys of Initial packets of versions 1 and 2 (RFC 9001, section 5.2, and
 * RFC 9369, section 3.3), and sealing and opening with them, with libcrypto's
 * ciphers, for the examples initial.c and capture.c.  Both define check, which
 * exits if a condition doesn't hold. */
#ifndef INITIAL_KEYS_H
#define INITIAL_KEYS_H

#include <openssl/evp.h>
#include <openssl/hmac.h>
#include <string.h>

#include "quic_wire.h"

enum { TAG = 16, SAMPLE = 16 };

typedef struct keys {
  uint8_t key[16], iv[12], hp[16];
} keys;

static void check(int is_so, const char *what);

static void hmac(const uint8_t *key, size_t keylen, const uint8_t *bytes,
                 size_t len, uint8_t out[32]) {
  check(HMAC(EVP_sha256(), key, (int)keylen, bytes, len, out, NULL) != NULL,
        "no HMAC");
}

/* HKDF-Expand-Label of TLS 1.3 with no context, for at most 32 bytes. */
static void expand(const uint8_t secret[32], const char *label, uint8_t *out,
                   size_t len) {
  uint8_t info[64] = {0, (uint8_t)len}, block[32];
  const size_t labellen = strlen(label);
  info[2] = (uint8_t)(6 + labellen);
  memcpy(info + 3, "tls13 ", 6);
  memcpy(info + 9, label, labellen);
  info[10 + labellen] =
      1; /* after the length of the empty context: the first block */
  hmac(secret, 32, info, 11 + labellen, block);
  memcpy(out, block, len);
}

/* The keys of the Initial packets that a side sends, by the destination id of
 * the client's first one. */
static keys initial_keys(uint32_t version, unsigned side, const uint8_t *dcid,
                         size_t dcidlen) {
  static const uint8_t salts[2][20] = {
      {0x38, 0x76, 0x2c, 0xf7, 0xf5, 0x59, 0x34, 0xb3, 0x4d, 0x17,
       0x9a, 0xe6, 0xa4, 0xc8, 0x0c, 0xad, 0xcc, 0xbb, 0x7f, 0x0a},
      {0x0d, 0xed, 0xe3, 0xde, 0xf7, 0x00, 0xa6, 0xdb, 0x81, 0x93,
       0x81, 0xbe, 0x6e, 0x26, 0x9d, 0xcb, 0xf9, 0xbd, 0x2e, 0xd9}};
  const int is_2 = version == QUIC_WIRE_VERSION_2;
  uint8_t initial[32], secret[32];
  keys k;
  hmac(salts[is_2], sizeof salts[is_2], dcid, dcidlen, initial);
  expand(initial, side == QUIC_WIRE_SIDE_CLIENT ? "client in" : "server in",
         secret, 32);
  expand(secret, is_2 ? "quicv2 key" : "quic key", k.key, 16);
  expand(secret, is_2 ? "quicv2 iv" : "quic iv", k.iv, 12);
  expand(secret, is_2 ? "quicv2 hp" : "quic hp", k.hp, 16);
  return k;
}

/* The mask for header protection: the first five bytes of an encrypted
 * block. */
static void make_mask(const keys *k, const uint8_t *sample, uint8_t mask[5]) {
  EVP_CIPHER_CTX *aes = EVP_CIPHER_CTX_new();
  uint8_t block[32];
  int len = 0;
  check(aes && EVP_EncryptInit_ex(aes, EVP_aes_128_ecb(), NULL, k->hp, NULL) &&
            EVP_EncryptUpdate(aes, block, &len, sample, SAMPLE),
        "no AES");
  EVP_CIPHER_CTX_free(aes);
  memcpy(mask, block, 5);
}

/* Seals |len| bytes after a header of |headerlen| bytes, writes them to |out|,
 * which may be their own address, and appends the tag; or opens them, with the
 * tag at their end.  Returns whether the tag is right. */
static int crypt_payload(const keys *k, int seal, uint64_t number,
                         const uint8_t *header, size_t headerlen,
                         const uint8_t *payload, size_t len, uint8_t *out) {
  EVP_CIPHER_CTX *gcm = EVP_CIPHER_CTX_new();
  uint8_t nonce[12], tag[TAG], end[TAG];
  int n = 0, is_right, i;
  memcpy(nonce, k->iv, 12);
  for (i = 0; i < 8; i++)
    nonce[11 - i] ^= (uint8_t)(number >> (8 * i));
  if (!seal) {
    len -= TAG;
    memcpy(tag, payload + len, TAG);
  }
  check(gcm &&
            EVP_CipherInit_ex(gcm, EVP_aes_128_gcm(), NULL, k->key, nonce,
                              seal) &&
            EVP_CipherUpdate(gcm, NULL, &n, header, (int)headerlen) &&
            EVP_CipherUpdate(gcm, out, &n, payload, (int)len),
        "no AES-GCM");
  if (!seal)
    EVP_CIPHER_CTX_ctrl(gcm, EVP_CTRL_GCM_SET_TAG, TAG, tag);
  is_right = EVP_CipherFinal_ex(gcm, end, &n) == 1;
  if (seal)
    EVP_CIPHER_CTX_ctrl(gcm, EVP_CTRL_GCM_GET_TAG, TAG, out + len);
  EVP_CIPHER_CTX_free(gcm);
  return is_right;
}

#endif /* INITIAL_KEYS_H */
