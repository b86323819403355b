// A transfer over OpenSSL's QUIC, 3.5 and later, with a qlog in the folder that QLOGDIR names.
//
//   transfer server PORT CERT KEY [no-retry] serves one connection and ends
//   transfer client PORT down|up BYTES PARTS
//
// cc transfer.c -lssl -lcrypto
#include <arpa/inet.h>
#include <netinet/in.h>
#include <openssl/err.h>
#include <openssl/quic.h>
#include <openssl/ssl.h>
#include <stdint.h>
#include <stdio.h>
#include <stdlib.h>
#include <string.h>
#include <sys/socket.h>
#include <unistd.h>

// A request is a way, `d` or `u`, and how many bytes are moved that way.
enum { REQUEST_SIZE = 9, RECEIVE_BUFFER = 4 << 20, MICROSECONDS_BETWEEN_PARTS = 30000, USAGE = 64 };

static const unsigned char protocols[] = {1, 'x'};
static unsigned char buffer[16384];

static void fail(const char *what) {
  fprintf(stderr, "%s failed\n", what);
  ERR_print_errors_fp(stderr);
  exit(1);
}

static struct sockaddr_in loopback(int port) {
  struct sockaddr_in address = {.sin_family = AF_INET, .sin_port = htons(port)};
  address.sin_addr.s_addr = htonl(INADDR_LOOPBACK);
  return address;
}

static int opened_socket(void) {
  int size = RECEIVE_BUFFER;
  int opened = socket(AF_INET, SOCK_DGRAM, 0);
  if (opened < 0) fail("socket");
  setsockopt(opened, SOL_SOCKET, SO_RCVBUF, &size, sizeof size);
  return opened;
}

static void send_bytes(SSL *stream, uint64_t left) {
  size_t written;
  while (left > 0) {
    size_t part = left < sizeof buffer ? left : sizeof buffer;
    if (!SSL_write_ex(stream, buffer, part, &written)) fail("SSL_write_ex");
    left -= written;
  }
}

static int choose_protocol(SSL *connection, const unsigned char **chosen, unsigned char *size,
                           const unsigned char *offered, unsigned int offered_size, void *unused) {
  (void)connection, (void)unused;
  int found = SSL_select_next_proto((unsigned char **)chosen, size, protocols, sizeof protocols,
                                    offered, offered_size);
  return found == OPENSSL_NPN_NEGOTIATED ? SSL_TLSEXT_ERR_OK : SSL_TLSEXT_ERR_ALERT_FATAL;
}

// Reads a stream to its end, and does what its request asks.
static void answer(SSL *stream) {
  unsigned char request[REQUEST_SIZE] = {0};
  size_t have = 0, part;
  while (SSL_read_ex(stream, buffer, sizeof buffer, &part))
    for (size_t index = 0; index < part && have < REQUEST_SIZE; ++index)
      request[have++] = buffer[index];
  uint64_t size = 0;
  for (int index = 1; index < REQUEST_SIZE; ++index) size = size << 8 | request[index];
  send_bytes(stream, request[0] == 'd' ? size : 2);
  SSL_stream_conclude(stream, 0);
  SSL_free(stream);
}

static SSL *listener_at(int port, uint64_t flags, SSL_CTX *context) {
  int server = opened_socket();
  struct sockaddr_in address = loopback(port);
  if (bind(server, (struct sockaddr *)&address, sizeof address)) fail("bind");
  SSL *listener = SSL_new_listener(context, flags);
  if (!listener || !SSL_set_fd(listener, server) || !SSL_listen(listener)) fail("SSL_listen");
  return listener;
}

static void serve(int port, const char *cert, const char *key, uint64_t flags) {
  SSL_CTX *context = SSL_CTX_new(OSSL_QUIC_server_method());
  if (!context || SSL_CTX_use_certificate_chain_file(context, cert) <= 0 ||
      SSL_CTX_use_PrivateKey_file(context, key, SSL_FILETYPE_PEM) <= 0)
    fail("SSL_CTX_new");
  SSL_CTX_set_alpn_select_cb(context, choose_protocol, NULL);
  SSL *listener = listener_at(port, flags, context);
  SSL *connection = SSL_accept_connection(listener, 0);
  if (!connection) fail("SSL_accept_connection");
  SSL_set_default_stream_mode(connection, SSL_DEFAULT_STREAM_MODE_NONE);
  SSL_set_incoming_stream_policy(connection, SSL_INCOMING_STREAM_POLICY_ACCEPT, 0);
  SSL *stream;
  while ((stream = SSL_accept_stream(connection, 0))) answer(stream);
  while (SSL_shutdown(connection) == 0) continue;
  SSL_free(connection);
  SSL_free(listener);
  SSL_CTX_free(context);
}

static SSL *connected_to(int port, SSL_CTX *context) {
  SSL *connection = SSL_new(context);
  SSL_set_default_stream_mode(connection, SSL_DEFAULT_STREAM_MODE_NONE);
  int client = opened_socket();
  struct sockaddr_in address = loopback(port);
  if (connect(client, (struct sockaddr *)&address, sizeof address)) fail("connect");
  BIO *bio = BIO_new(BIO_s_datagram());
  BIO_ADDR *peer = BIO_ADDR_new();
  BIO_set_fd(bio, client, BIO_CLOSE);
  BIO_ADDR_rawmake(peer, AF_INET, &address.sin_addr, sizeof address.sin_addr, address.sin_port);
  SSL_set_bio(connection, bio, bio);
  if (!SSL_set1_initial_peer_addr(connection, peer)) fail("SSL_set1_initial_peer_addr");
  BIO_ADDR_free(peer);
  SSL_set_tlsext_host_name(connection, "localhost");
  SSL_set_alpn_protos(connection, protocols, sizeof protocols);
  if (SSL_connect(connection) <= 0) fail("SSL_connect");
  return connection;
}

// Sends a request and reads its answer.
static void ask(SSL *stream, char way, uint64_t size) {
  unsigned char request[REQUEST_SIZE] = {way};
  size_t part;
  for (int index = 1; index < REQUEST_SIZE; ++index)
    request[index] = size >> 8 * (REQUEST_SIZE - 1 - index);
  if (!SSL_write_ex(stream, request, REQUEST_SIZE, &part)) fail("SSL_write_ex");
  if (way == 'u') send_bytes(stream, size);
  SSL_stream_conclude(stream, 0);
  while (SSL_read_ex(stream, buffer, sizeof buffer, &part)) continue;
  SSL_free(stream);
}

static void transfer(int port, char way, uint64_t size, int parts) {
  SSL_CTX *context = SSL_CTX_new(OSSL_QUIC_client_method());
  if (!context) fail("SSL_CTX_new");
  SSL_CTX_set_verify(context, SSL_VERIFY_NONE, NULL);
  SSL *connection = connected_to(port, context);
  for (int part = 0; part < parts; ++part) {
    SSL *stream = SSL_new_stream(connection, 0);
    if (!stream) fail("SSL_new_stream");
    ask(stream, way, size / parts);
    if (parts > 1) usleep(MICROSECONDS_BETWEEN_PARTS);
  }
  while (SSL_shutdown(connection) == 0) continue;
  SSL_free(connection);
  SSL_CTX_free(context);
}

int main(int count, char **words) {
  int sends_no_retry = count == 6 && !strcmp(words[5], "no-retry");
  if ((count == 5 || sends_no_retry) && !strcmp(words[1], "server")) {
    serve(atoi(words[2]), words[3], words[4], sends_no_retry ? SSL_LISTENER_FLAG_NO_VALIDATE : 0);
    return 0;
  }
  if (count == 6 && !strcmp(words[1], "client") && atoi(words[5]) > 0) {
    transfer(atoi(words[2]), words[3][0], strtoull(words[4], NULL, 10), atoi(words[5]));
    return 0;
  }
  fprintf(stderr, "%s server PORT CERT KEY [no-retry] | %s client PORT down|up BYTES PARTS\n",
          words[0], words[0]);
  return USAGE;
}
