/* The settings of an administrator for patterns. */
#ifndef SETTINGS_H
#define SETTINGS_H

/* How large a pattern may become when compiled, in bytes: regex_lite.size_limit. */
extern int size_limit;

#endif
