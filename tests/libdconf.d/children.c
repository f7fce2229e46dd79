/* A child of fork() beside a client whose set waits, since another has the turn to write: what it reads is what the files hold, and what it sets is its own to
 * write; what waits is its parent's.
 *
 *   children LOCK */
#include <dconf.h>
#include <fcntl.h>
#include <stdio.h>
#include <stdlib.h>
#include <sys/file.h>
#include <sys/wait.h>
#include <unistd.h>

static DConfClient *client;

static void print_key(const char *who, const char *key)
{
    g_autoptr(GVariant) value = dconf_client_read(client, key);
    printf("%s reads %s: %d\n", who, key, value ? g_variant_get_int32(value) : 0);
    fflush(stdout);
}

static void set(const char *key, int value)
{
    if (!dconf_client_write_fast(client, key, g_variant_new_int32(value), NULL))
        abort();
}

/* Whether a child did all that, and ended well. */
static int ends_well(pid_t child)
{
    int status = 0;
    return waitpid(child, &status, 0) == child && WIFEXITED(status) && WEXITSTATUS(status) == 0;
}

/* It sets while the turn is another's still, and syncs once that is given back. */
static void be_child(int turn)
{
    char byte = 0;
    print_key("the child", "/k");
    set("/own", 3);
    print_key("the child", "/own");
    if (read(turn, &byte, 1) != 1)
        abort();
    dconf_client_sync(client);
    print_key("the child", "/k");
    _exit(0);
}

int main(int count, char **words)
{
    int turn[2];
    if (count != 2 || pipe(turn) != 0)
        return 2;
    alarm(60);
    client = dconf_client_new();
    if (!dconf_client_write_sync(client, "/k", g_variant_new_int32(1), NULL, NULL, NULL))
        return 1;
    int lock = open(words[1], O_RDWR | O_CLOEXEC);
    if (lock < 0 || flock(lock, LOCK_EX) != 0)
        return 1;
    set("/k", 2);
    print_key("the parent", "/k");
    pid_t child = fork();
    if (child == 0)
        be_child(turn[0]);
    g_usleep(300000);
    if (flock(lock, LOCK_UN) != 0) /* the child has the file, too */
        return 1;
    dconf_client_sync(client);
    if (write(turn[1], "", 1) != 1 || !ends_well(child))
        return 1;
    print_key("the parent", "/k");
    print_key("the parent", "/own");
    g_object_unref(client);
    return 0;
}
