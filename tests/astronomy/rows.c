/* The rows of a table as lines, read by cfitsio, which then copies the whole file: rows TABLE COPY */
#include <fitsio.h>
#include <stdio.h>
#include <stdlib.h>

int main(int count, char **arguments)
{
    fitsfile *in, *out;
    int status = 0, kind, *columns[3];
    long rows = 0;
    if (count != 3)
        return 2;
    fits_open_file(&in, arguments[1], READONLY, &status);
    fits_movabs_hdu(in, 2, &kind, &status);
    fits_get_num_rows(in, &rows, &status);
    for (int column = 0; column < 3; column++) {
        columns[column] = calloc((size_t)rows + 1, sizeof(int));
        fits_read_col(in, TINT, column + 1, 1, 1, rows, NULL, columns[column], NULL, &status);
    }
    for (long row = 0; row < rows && !status; row++)
        printf("%d %d %d\n", columns[0][row], columns[1][row], columns[2][row]);
    fits_create_file(&out, arguments[2], &status);
    fits_copy_file(in, out, 1, 1, 1, &status);
    fits_close_file(out, &status);
    fits_close_file(in, &status);
    fits_report_error(stderr, status);
    return status != 0;
}
