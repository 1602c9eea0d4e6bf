/* echo server PORT CERTIFICATE KEY: an OpenSSL QUIC server on loopback, which sends back what one client sends, and
 * ends.
 * echo client PORT CERTIFICATE MEGABYTES: its client, which compares what comes back. */
#include <arpa/inet.h>
#include <netinet/in.h>
#include <openssl/err.h>
#include <openssl/quic.h>
#include <openssl/ssl.h>
#include <stdio.h>
#include <stdlib.h>
#include <string.h>
#include <sys/socket.h>

enum { CHUNK = 1 << 16 };
static const unsigned char ALPN[] = "\x04" "echo";
static unsigned char chunk[CHUNK], came[CHUNK];

static void need(int ok, const char *what) {
  if (ok) return;
  fprintf(stderr, "echo: %s\n", what);
  ERR_print_errors_fp(stderr);
  exit(1);
}

static int choose(SSL *ssl, const unsigned char **out, unsigned char *out_len, const unsigned char *in,
                  unsigned int in_len, void *arg) {
  (void)ssl, (void)arg;
  return SSL_select_next_proto((unsigned char **)out, out_len, ALPN, sizeof ALPN - 1, in, in_len) ==
                 OPENSSL_NPN_NEGOTIATED
             ? SSL_TLSEXT_ERR_OK
             : SSL_TLSEXT_ERR_ALERT_FATAL;
}

/* A UDP socket on loopback, bound to |port|, or connected to it. */
static int open_socket(const char *port, int is_server) {
  struct sockaddr_in address = {0};
  int fd = socket(AF_INET, SOCK_DGRAM, 0);
  address.sin_family = AF_INET;
  address.sin_addr.s_addr = htonl(INADDR_LOOPBACK);
  address.sin_port = htons((uint16_t)atoi(port));
  need(fd >= 0 && (is_server ? bind : connect)(fd, (struct sockaddr *)&address, sizeof address) == 0, "socket");
  return fd;
}

static void serve(char **args) {
  SSL_CTX *ctx = SSL_CTX_new(OSSL_QUIC_server_method());
  SSL *listener, *conn;
  size_t len, written;
  need(SSL_CTX_use_certificate_chain_file(ctx, args[1]) == 1, "certificate");
  need(SSL_CTX_use_PrivateKey_file(ctx, args[2], SSL_FILETYPE_PEM) == 1, "key");
  SSL_CTX_set_alpn_select_cb(ctx, choose, NULL);
  listener = SSL_new_listener(ctx, 0);
  need(listener && SSL_set_fd(listener, open_socket(args[0], 1)) && SSL_listen(listener), "listen");
  conn = SSL_accept_connection(listener, 0);
  need(conn != NULL, "accept");
  while (SSL_read_ex(conn, came, CHUNK, &len))
    need(SSL_write_ex(conn, came, len, &written) && written == len, "write");
  need(SSL_get_error(conn, 0) == SSL_ERROR_ZERO_RETURN, "read");
  need(SSL_stream_conclude(conn, 0), "conclude");
  while (SSL_shutdown(conn) == 0)
    ;
  SSL_free(conn);
  SSL_free(listener);
  SSL_CTX_free(ctx);
}

/* Sends a chunk, and reads it back. */
static void exchange(SSL *conn) {
  size_t len, at = 0, written;
  need(SSL_write_ex(conn, chunk, CHUNK, &written) && written == CHUNK, "write");
  for (; at < CHUNK; at += len) need(SSL_read_ex(conn, came + at, CHUNK - at, &len), "read");
  need(memcmp(chunk, came, CHUNK) == 0, "other bytes came back");
}

static void ask(char **args) {
  SSL_CTX *ctx = SSL_CTX_new(OSSL_QUIC_client_method());
  SSL *conn = SSL_new(ctx);
  long i, chunks = atol(args[2]) * 16;
  size_t len;
  SSL_CTX_set_verify(ctx, SSL_VERIFY_PEER, NULL);
  SSL_set_verify(conn, SSL_VERIFY_PEER, NULL);
  need(SSL_CTX_load_verify_file(ctx, args[1]) && SSL_set1_dnsname(conn, "localhost") &&
           SSL_set_tlsext_host_name(conn, "localhost"),
       "certificate");
  need(SSL_set_alpn_protos(conn, ALPN, sizeof ALPN - 1) == 0, "ALPN");
  need(SSL_set_fd(conn, open_socket(args[0], 0)) && SSL_connect(conn) == 1, "connect");
  for (i = 0; i < CHUNK; ++i) chunk[i] = (unsigned char)(i * i >> 3);
  for (i = 0; i < chunks; ++i) {
    chunk[0] = (unsigned char)i;
    exchange(conn);
  }
  need(SSL_stream_conclude(conn, 0) && !SSL_read_ex(conn, came, CHUNK, &len), "conclude");
  need(SSL_get_error(conn, 0) == SSL_ERROR_ZERO_RETURN, "end");
  while (SSL_shutdown(conn) == 0)
    ;
  SSL_free(conn);
  SSL_CTX_free(ctx);
}

int main(int argc, char **argv) {
  if (argc != 5) return 2;
  if (!strcmp(argv[1], "server")) {
    serve(argv + 2);
  } else {
    ask(argv + 2);
  }
  return 0;
}
