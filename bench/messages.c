// The messages of the benchmark of reading. usage: messages curl COUNT | browser COUNT | plain BYTES | chunked BYTES CHUNK
#include <stdio.h>
#include <stdlib.h>
#include <string.h>

// Heads as curl sends them: 3 fields.
static void curl_heads(long count) {
    for (long i = 0; i < count; i++)
        printf("GET /l/stor/object%07ld HTTP/1.1\r\n"
               "Host: localhost\r\n"
               "User-Agent: curl/7.88.1\r\n"
               "Accept: */*\r\n"
               "\r\n",
               i);
}

// Heads as a browser sends them: 12 fields.
static void browser_heads(long count) {
    for (long i = 0; i < count; i++)
        printf("GET /l/stor/object%07ld HTTP/1.1\r\n"
               "Host: store.example.com:8080\r\n"
               "Connection: keep-alive\r\n"
               "sec-ch-ua: \"Chromium\";v=\"124\", \"Google Chrome\";v=\"124\", \"Not-A.Brand\";v=\"99\"\r\n"
               "sec-ch-ua-mobile: ?0\r\n"
               "sec-ch-ua-platform: \"Linux\"\r\n"
               "Upgrade-Insecure-Requests: 1\r\n"
               "User-Agent: Mozilla/5.0 (X11; Linux x86_64) AppleWebKit/537.36 (KHTML, like Gecko) Chrome/124.0.0.0 "
               "Safari/537.36\r\n"
               "Accept: text/html,application/xhtml+xml,application/xml;q=0.9,image/avif,image/webp,image/apng,*/*;q=0.8,"
               "application/signed-exchange;v=b3;q=0.7\r\n"
               "Sec-Fetch-Site: same-origin\r\n"
               "Referer: http://store.example.com:8080/l/stor/\r\n"
               "Accept-Encoding: gzip, deflate, br, zstd\r\n"
               "Accept-Language: en-GB,en-US;q=0.9,en;q=0.8,de;q=0.7\r\n"
               "\r\n",
               i);
}

static void body(char *bytes, long size) {
    memset(bytes, 'x', size);
    fwrite(bytes, 1, size, stdout);
}

// One body whose length is told.
static void plain_body(char *bytes, long size, long piece) {
    printf("PUT /l/stor/object HTTP/1.1\r\nHost: localhost\r\nContent-Length: %ld\r\n\r\n", size);
    for (long done = 0; done < size; done += piece) body(bytes, size - done < piece ? size - done : piece);
}

// One body in chunks.
static void chunked_body(char *bytes, long size, long chunk) {
    printf("PUT /l/stor/object HTTP/1.1\r\nHost: localhost\r\nTransfer-Encoding: chunked\r\n\r\n");
    for (long done = 0; done < size; done += chunk) {
        long count = size - done < chunk ? size - done : chunk;
        printf("%lx\r\n", count);
        body(bytes, count);
        fputs("\r\n", stdout);
    }
    fputs("0\r\n\r\n", stdout);
}

int main(int argc, char **argv) {
    if (argc < 3) return fputs("usage: messages curl|browser COUNT | plain|chunked BYTES [CHUNK]\n", stderr), 2;
    long count = atol(argv[2]), piece = argc > 3 ? atol(argv[3]) : 65536;
    char *bytes = malloc(piece);
    if (!bytes || piece < 1) return perror("malloc"), 1;
    if (!strcmp(argv[1], "curl")) curl_heads(count);
    else if (!strcmp(argv[1], "browser")) browser_heads(count);
    else if (!strcmp(argv[1], "plain")) plain_body(bytes, count, piece);
    else chunked_body(bytes, count, piece);
    return fflush(stdout) ? 1 : 0;
}
