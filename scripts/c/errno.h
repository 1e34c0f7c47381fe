/* What the C here needs of <errno.h>: the kit's compiler comes without headers. */
#ifndef KIT_ERRNO_H
#define KIT_ERRNO_H
int *__errno_location(void);
#define errno (*__errno_location())
#define EISDIR 21
#endif
