/* Sends requests from the command line to a server's control socket. */
#ifndef VFU_ASK_H
#define VFU_ASK_H

/* Sends each argument as a request to the server that listens at this path, and prints the answers. Without arguments,
   sends each line of standard input. Returns 0 if all requests succeeded, 1 if one was refused, 2 if no server listens
   at the path or the server disconnected. */
int ask(const char *path, int count, char **requests);

#endif
