! stencil ROOT NAME: a stencil of five points on a grid, which writes a checkpoint, goes on, is restarted from the checkpoint,
! and comes to the same grid. Each of four strips of columns has a writer of its own, as ranks of a parallel program do.
program stencil
  use, intrinsic :: iso_c_binding, only: c_int64_t
  use plfs
  implicit none
  integer, parameter :: side = 256, strips = 4, before = 20, behind = 20
  integer(c_int64_t), parameter :: real_bytes = storage_size(1d0)/8
  real(8) :: grid(side, side), restarted(side, side)
  character(4096) :: root, name
  type(plfs_fs) :: fs

  if (command_argument_count() /= 2) then
    print '(a)', 'usage: stencil ROOT NAME'
    stop 2
  end if
  call get_command_argument(1, root)
  call get_command_argument(2, name)
  call begin(grid)
  call step(grid, before)
  call need(plfs_mount(root, fs), "mount")
  call write_checkpoint(grid)
  call step(grid, behind)
  restarted = -1
  call read_checkpoint(restarted)
  call step(restarted, behind)
  call need(plfs_unmount(fs), "unmount")
  if (any(grid /= restarted)) then
    print '(a)', trim(name)//": the grids differ"
    stop 1
  end if
  print '(a,i0,a,i0,a)', trim(name)//": a grid of ", side, " by ", side, " went on as it would have"

contains

  ! Ends the program where a call failed.
  subroutine need(status, what)
    integer, intent(in) :: status
    character(*), intent(in) :: what
    if (status >= 0) return
    print '(a)', what//": "//plfs_strerror(status)
    stop 1
  end subroutine

  subroutine begin(grid)
    real(8), intent(out) :: grid(:, :)
    integer :: i, j
    do j = 1, side
      do i = 1, side
        grid(i, j) = modulo(31*i + 17*j, 101)
      end do
    end do
  end subroutine

  subroutine step(grid, steps)
    real(8), intent(inout) :: grid(:, :)
    integer, intent(in) :: steps
    real(8), allocatable :: next(:, :)
    integer :: k
    do k = 1, steps
      next = 0.5d0*grid + 0.125d0*(cshift(grid, 1, 1) + cshift(grid, -1, 1) + cshift(grid, 1, 2) + cshift(grid, -1, 2))
      grid = next
    end do
  end subroutine

  ! Each strip writes its columns one by one at their places, syncs and closes.
  subroutine write_checkpoint(grid)
    real(8), intent(in) :: grid(:, :)
    integer(c_int64_t), parameter :: column = side*real_bytes
    type(plfs_file) :: writers(strips)
    integer :: strip, j
    do strip = 1, strips
      call need(plfs_open_write(fs, name, writers(strip)), "open to write")
    end do
    do j = 1, side
      strip = modulo(j - 1, strips) + 1
      call need(int(plfs_pwrite(writers(strip), grid(:, j), column, (j - 1)*column)), "write")
    end do
    do strip = 1, strips
      if (plfs_close(writers(strip)) /= side/strips) stop 1
    end do
  end subroutine

  subroutine read_checkpoint(grid)
    real(8), intent(out) :: grid(:, :)
    type(plfs_file) :: reader
    integer(c_int64_t), parameter :: all_bytes = real_bytes*side*side
    call need(plfs_open_read(fs, name, reader, strips), "open to read")
    if (plfs_size(reader) /= all_bytes) stop 1
    if (plfs_pread(reader, grid, all_bytes, 0_c_int64_t) /= all_bytes) stop 1
    call need(int(plfs_close(reader)), "close")
  end subroutine
end program
