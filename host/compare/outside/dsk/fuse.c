/* Calls the disk code of Fuse, the Free Unix Spectrum Emulator, from a command
   line: reads a disk image of any kind it knows and writes it as the kind that the
   ending of OUT tells: .dsk is CPC DSK, .log a text with the data of every sector.
   Everything about disk images is Fuse's own peripherals/disk/disk.c and crc.c;
   here are only the few functions which that file takes from the emulator.

   usage: fuse IN OUT   (see `make` for how it is built) */

#include <config.h>
#include <stdio.h>
#include <stdlib.h>
#include <string.h>
#include <libspectrum.h>
#include "peripherals/disk/disk.h"
#include "peripherals/disk/trdos.h"
#include "settings.h"
#include "utils.h"

settings_info settings_current;

int ui_query( const char *message ) { (void)message; return 0; }

char *utils_safe_strdup( const char *s ) { return s ? strdup( s ) : NULL; }

int utils_read_file( const char *filename, utils_file *file )
{
  FILE *f = fopen( filename, "rb" );
  if( !f ) return 1;
  fseek( f, 0, SEEK_END );
  file->length = ftell( f );
  rewind( f );
  file->buffer = malloc( file->length + 1 );
  if( fread( file->buffer, 1, file->length, f ) != file->length ) return 1;
  fclose( f );
  return 0;
}

void utils_close_file( utils_file *file ) { free( file->buffer ); }

int main( int argc, char **argv )
{
  disk_t d;
  int e;

  memset( &d, 0, sizeof d );
  if( argc != 3 || libspectrum_init() ) return 2;
  e = disk_open( &d, argv[1], 0, 0 );
  if( e ) { fprintf( stderr, "open: %s\n", disk_strerror( e ) ); return 1; }
  d.type = DISK_TYPE_NONE;
  e = disk_write( &d, argv[2] );
  if( e ) { fprintf( stderr, "write: %s\n", disk_strerror( e ) ); return 1; }
  return 0;
}
