/* Prints the notices that come to a socket, a line each, for host/test: systemd's end of NOTIFY_SOCKET. */
#include <stdio.h>
#include <string.h>
#include <sys/socket.h>
#include <sys/un.h>

int main(int argc, char **argv)
{
    struct sockaddr_un address = {.sun_family = AF_UNIX};
    char words[200];
    int file = socket(AF_UNIX, SOCK_DGRAM, 0);

    if (argc != 2 || file < 0 || strlen(argv[1]) >= sizeof address.sun_path)
        return 2;
    strcpy(address.sun_path, argv[1]);
    if (bind(file, (const struct sockaddr *)&address, sizeof address) != 0)
        return 2;
    for (;;) {
        ssize_t count = recv(file, words, sizeof words, 0);

        if (count < 0 || printf("%.*s\n", (int)count, words) < 0 || fflush(stdout) != 0)
            return 2;
    }
}
