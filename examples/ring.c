#include <mpi.h>
#include <stdio.h>

/* A token goes round twice, and each rank adds one to it. */
int main(int argc, char **argv) {
  int rank, size, round, token = 0;
  MPI_Init(&argc, &argv);
  MPI_Comm_rank(MPI_COMM_WORLD, &rank);
  MPI_Comm_size(MPI_COMM_WORLD, &size);
  int next = (rank + 1) % size;
  int last = (rank + size - 1) % size;
  for (round = 1; round <= 2; round++) {
    if (rank > 0) {
      MPI_Recv(&token, 1, MPI_INT, last, round, MPI_COMM_WORLD, MPI_STATUS_IGNORE);
    }
    token++;
    MPI_Send(&token, 1, MPI_INT, next, round, MPI_COMM_WORLD);
    if (rank == 0) {
      MPI_Recv(&token, 1, MPI_INT, last, round, MPI_COMM_WORLD, MPI_STATUS_IGNORE);
      printf("round %d: the token is %d\n", round, token);
    }
  }
  MPI_Finalize();
  return 0;
}
