#include <mpi.h>
#include <stdio.h>

/* Each rank but 0 sends its square, and rank 0 prints them as they come. */
int main(int argc, char **argv) {
  int rank, size, i, square;
  MPI_Status status;
  MPI_Init(&argc, &argv);
  MPI_Comm_rank(MPI_COMM_WORLD, &rank);
  MPI_Comm_size(MPI_COMM_WORLD, &size);
  if (rank == 0) {
    for (i = 1; i < size; i++) {
      MPI_Recv(&square, 1, MPI_INT, MPI_ANY_SOURCE, 0, MPI_COMM_WORLD, &status);
      printf("%d from %d\n", square, status.MPI_SOURCE);
    }
  } else {
    square = rank * rank;
    MPI_Send(&square, 1, MPI_INT, 0, 0, MPI_COMM_WORLD);
  }
  MPI_Finalize();
  return 0;
}
