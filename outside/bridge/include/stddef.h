/* The type that flaskbloom.h names, for x86-64. */
#pragma once
typedef unsigned long size_t;
