/* In the place of the system's, which declares readdir64() with two types: CBMC refuses that. */
#pragma once
struct dirent {
    char d_name[256];
};
typedef struct __dirstream DIR;
DIR *fdopendir(int file);
struct dirent *readdir(DIR *names);
int closedir(DIR *names);
