/* dconfdb-home: the proved program where the environment names no folder. It asks the system for the user's home, as the library does (getpwuid_r, and so
 * LDAP and whatever else nsswitch.conf(5) names), and hands it on. It is no part of the launcher, since what it asks can't be linked into a
 * program without shared libraries. */
#define _DEFAULT_SOURCE
#define _POSIX_C_SOURCE 200809L
#include "home.h"

#include <stdio.h>

/* One that the system has for nobody is as one that the environment has empty. Gives 0, or errno. */
static int set_home(void)
{
    char *home;
    int fault = home_of_user(&home);
    if (fault == 0 && setenv("HOME", home, 1) != 0)
        fault = errno;
    free(home);
    return fault;
}

/* In the words of the proved program. It returns 1. */
static int refuse(int fault, const char *of)
{
    const DconfdbFaultMet met = {.of = DCONFDB_FAULT_OF_FILE, .number = (uint32_t)fault};
    DconfdbSentence sentence;
    dconfdb_sentence(&met, &sentence);
    if (sentence.code == DCONFDB_MEMORY)
        fprintf(stderr, "error: Memory\n");
    else
        fprintf(stderr, "error: %s %s\n", file_fault(DCONFDB_TO_LOOK, fault) == 0 ? "NoFile" : "Device", of);
    return 1;
}

int main(int count, char **words)
{
    static const char program[] = LIBEXEC "/dconfdb";
    (void)count;
    int fault = set_home();
    if (fault != 0)
        return refuse(fault, "the user's home");
    execv(program, words);
    return refuse(errno, program);
}
