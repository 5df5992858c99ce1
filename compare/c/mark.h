// The boundary mark: a window that holds it is no start.
#ifndef MARK_H
#define MARK_H

enum { MARK = 255 };

#endif
