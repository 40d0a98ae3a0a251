/* The types that flaskbloom.h names, for x86-64: the kit's compiler comes without headers. */
#pragma once
typedef unsigned char uint8_t;
typedef int int32_t;
typedef unsigned int uint32_t;
typedef unsigned long uint64_t;
