/* The name that heatherplane.h had before it declared every call. */
#ifndef HEATHERPLANE_STARFILE_H
#define HEATHERPLANE_STARFILE_H

#include "heatherplane.h"

#endif
