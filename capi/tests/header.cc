// The header in C++: header FOLDER
#include "dconfdb.h"

#include <string>

int main(int argc, char **argv)
{
    DconfdbError error = DCONFDB_ERROR_INIT;
    DconfdbStore *store = dconfdb_store_open(argc > 1 ? argv[1] : nullptr, &error);
    if (!store)
        return 1;
    DconfdbEdit edit = {"/by/c++", "s", "yes", 4};
    bool done = dconfdb_store_change(store, NULL, &edit, 1, &error);
    DconfdbSnapshot *now = dconfdb_store_snapshot(store);
    DconfdbValue value;
    done = done && dconfdb_snapshot_read(now, "/by/c++", &value)
        && std::string(static_cast<const char *>(value.data), value.size - 1) == "yes";
    dconfdb_snapshot_unref(now);
    edit = {"/by/c++", nullptr, nullptr, 0};
    done = done && dconfdb_store_change(store, NULL, &edit, 1, nullptr);
    dconfdb_store_close(store);
    return done ? 0 : 1;
}
