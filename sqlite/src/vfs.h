/* The VFS `yieldcleat`. */
#ifndef VFS_H
#define VFS_H

/* Registers it beside the default VFS, which keeps temporary files. Does nothing where it is registered. */
int vfs_register(void);

#endif
