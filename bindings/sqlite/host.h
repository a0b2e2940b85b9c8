/* SQLite, as a loadable extension sees it. */
#ifndef HOST_H
#define HOST_H

#include <sqlite3ext.h>
#include <stdbool.h>
#include <stddef.h>
#include <stdint.h>

SQLITE_EXTENSION_INIT3

#endif
