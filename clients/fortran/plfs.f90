! plfs: files of a store of Rigtolai, written and read from Fortran. It is plfs.h by iso_c_binding: that header says what each call
! does, which threads may make it, and when it answers which error.
!
! Answers are 0 or more where the call did what it says, else one of the errors below, negated. Sizes, places and lengths are in
! bytes and begin at 0. Names may have blanks behind them. Arrays are handed over as they lie in memory, so they have to be contiguous.
module plfs
  use, intrinsic :: iso_c_binding
  implicit none
  private

  integer, parameter, public :: plfs_no_file = 1, plfs_held = 2, plfs_busy = 3, plfs_exists = 4, plfs_too_far = 5, &
    plfs_stamps_spent = 6, plfs_ids_spent = 7, plfs_not_open = 8, plfs_already_open = 9, plfs_mounts_spent = 10, &
    plfs_bad_name = 11, plfs_bad_number = 12, plfs_no_handle = 13, plfs_no_memory = 14, plfs_not_started = 15, &
    plfs_no_root = 16, plfs_damaged = 17, plfs_fault = 18, plfs_engine_memory = 19, plfs_gone = 20, plfs_strange = 21

  ! A mount, and a writer or a reader of one file.
  type, public :: plfs_fs
    type(c_ptr) :: handle = c_null_ptr
  end type
  type, public :: plfs_file
    type(c_ptr) :: handle = c_null_ptr
  end type

  public :: plfs_mount, plfs_mount_at, plfs_unmount, plfs_open_write, plfs_pwrite, plfs_stamp, plfs_sync, plfs_close
  public :: plfs_open_read, plfs_pread, plfs_refresh, plfs_size, plfs_pieces
  public :: plfs_stat, plfs_trunc, plfs_rename, plfs_flatten, plfs_recover, plfs_strerror

  interface
    function c_mount(root, host, fs) bind(c, name="plfs_mount")
      import :: c_int, c_int32_t, c_char, c_ptr
      character(kind=c_char), intent(in) :: root(*)
      integer(c_int32_t), value :: host
      type(c_ptr), intent(out) :: fs
      integer(c_int) :: c_mount
    end function
    function c_mount_at(folder, fs) bind(c, name="plfs_mount_at")
      import :: c_int, c_char, c_ptr
      character(kind=c_char), intent(in) :: folder(*)
      type(c_ptr), intent(out) :: fs
      integer(c_int) :: c_mount_at
    end function
    function c_unmount(fs) bind(c, name="plfs_unmount")
      import :: c_int, c_ptr
      type(c_ptr), value :: fs
      integer(c_int) :: c_unmount
    end function
    function c_open_write(fs, name, file) bind(c, name="plfs_open_write")
      import :: c_int, c_char, c_ptr
      type(c_ptr), value :: fs
      character(kind=c_char), intent(in) :: name(*)
      type(c_ptr), intent(out) :: file
      integer(c_int) :: c_open_write
    end function
    function c_open_read(fs, name, workers, file) bind(c, name="plfs_open_read")
      import :: c_int, c_int32_t, c_char, c_ptr
      type(c_ptr), value :: fs
      character(kind=c_char), intent(in) :: name(*)
      integer(c_int32_t), value :: workers
      type(c_ptr), intent(out) :: file
      integer(c_int) :: c_open_read
    end function
    function c_pwrite(file, bytes, n, at) bind(c, name="plfs_pwrite")
      import :: c_ptr, c_size_t, c_int64_t
      type(c_ptr), value :: file
      type(*), intent(in) :: bytes(*)
      integer(c_size_t), value :: n
      integer(c_int64_t), value :: at
      integer(c_int64_t) :: c_pwrite
    end function
    function c_pread(file, into, n, at) bind(c, name="plfs_pread")
      import :: c_ptr, c_size_t, c_int64_t
      type(c_ptr), value :: file
      type(*) :: into(*)
      integer(c_size_t), value :: n
      integer(c_int64_t), value :: at
      integer(c_int64_t) :: c_pread
    end function
    function c_stamp(file) bind(c, name="plfs_stamp")
      import :: c_ptr, c_int64_t
      type(c_ptr), value :: file
      integer(c_int64_t) :: c_stamp
    end function
    function c_sync(file) bind(c, name="plfs_sync")
      import :: c_ptr, c_int64_t
      type(c_ptr), value :: file
      integer(c_int64_t) :: c_sync
    end function
    function c_close(file) bind(c, name="plfs_close")
      import :: c_ptr, c_int64_t
      type(c_ptr), value :: file
      integer(c_int64_t) :: c_close
    end function
    function c_refresh(file) bind(c, name="plfs_refresh")
      import :: c_ptr, c_int
      type(c_ptr), value :: file
      integer(c_int) :: c_refresh
    end function
    function c_size(file) bind(c, name="plfs_size")
      import :: c_ptr, c_int64_t
      type(c_ptr), value :: file
      integer(c_int64_t) :: c_size
    end function
    function c_pieces(file) bind(c, name="plfs_pieces")
      import :: c_ptr, c_int64_t
      type(c_ptr), value :: file
      integer(c_int64_t) :: c_pieces
    end function
    function c_stat(fs, name) bind(c, name="plfs_stat")
      import :: c_ptr, c_char, c_int64_t
      type(c_ptr), value :: fs
      character(kind=c_char), intent(in) :: name(*)
      integer(c_int64_t) :: c_stat
    end function
    function c_trunc(fs, name, length) bind(c, name="plfs_trunc")
      import :: c_ptr, c_char, c_int, c_int64_t
      type(c_ptr), value :: fs
      character(kind=c_char), intent(in) :: name(*)
      integer(c_int64_t), value :: length
      integer(c_int) :: c_trunc
    end function
    function c_rename(fs, name, to) bind(c, name="plfs_rename")
      import :: c_ptr, c_char, c_int
      type(c_ptr), value :: fs
      character(kind=c_char), intent(in) :: name(*), to(*)
      integer(c_int) :: c_rename
    end function
    function c_flatten(fs, name) bind(c, name="plfs_flatten")
      import :: c_ptr, c_char, c_int
      type(c_ptr), value :: fs
      character(kind=c_char), intent(in) :: name(*)
      integer(c_int) :: c_flatten
    end function
    function c_recover(fs, name) bind(c, name="plfs_recover")
      import :: c_ptr, c_char, c_int64_t
      type(c_ptr), value :: fs
      character(kind=c_char), intent(in) :: name(*)
      integer(c_int64_t) :: c_recover
    end function
    function c_strerror(error) bind(c, name="plfs_strerror")
      import :: c_ptr, c_int
      integer(c_int), value :: error
      type(c_ptr) :: c_strerror
    end function
    function c_strlen(text) bind(c, name="strlen")
      import :: c_ptr, c_size_t
      type(c_ptr), value :: text
      integer(c_size_t) :: c_strlen
    end function
  end interface

contains

  ! The words as C has them: without the blanks behind them, and ended by a zero byte.
  pure function ended(words)
    character(*), intent(in) :: words
    character(kind=c_char, len=:), allocatable :: ended
    ended = trim(words)//c_null_char
  end function

  ! Writers of the mount are of this host, 0 where none is given.
  integer function plfs_mount(root, fs, host) result(status)
    character(*), intent(in) :: root
    type(plfs_fs), intent(out) :: fs
    integer, intent(in), optional :: host
    integer(c_int32_t) :: chosen
    chosen = 0
    if (present(host)) chosen = int(host, c_int32_t)
    status = c_mount(ended(root), chosen, fs%handle)
  end function

  ! Joins the engine that serves the processes of this machine by this folder.
  integer function plfs_mount_at(folder, fs) result(status)
    character(*), intent(in) :: folder
    type(plfs_fs), intent(out) :: fs
    status = c_mount_at(ended(folder), fs%handle)
  end function

  integer function plfs_unmount(fs) result(status)
    type(plfs_fs), intent(inout) :: fs
    status = c_unmount(fs%handle)
    fs%handle = c_null_ptr
  end function

  integer function plfs_open_write(fs, name, file) result(status)
    type(plfs_fs), intent(in) :: fs
    character(*), intent(in) :: name
    type(plfs_file), intent(out) :: file
    status = c_open_write(fs%handle, ended(name), file%handle)
  end function

  ! The reader's indices are read in so many shares, 1 to 16, and in one where none is given.
  integer function plfs_open_read(fs, name, file, workers) result(status)
    type(plfs_fs), intent(in) :: fs
    character(*), intent(in) :: name
    type(plfs_file), intent(out) :: file
    integer, intent(in), optional :: workers
    integer(c_int32_t) :: chosen
    chosen = 1
    if (present(workers)) chosen = int(workers, c_int32_t)
    status = c_open_read(fs%handle, ended(name), chosen, file%handle)
  end function

  ! Writes the first n bytes of the array, which may be of any type.
  integer(c_int64_t) function plfs_pwrite(file, bytes, n, at) result(status)
    type(plfs_file), intent(in) :: file
    type(*), intent(in) :: bytes(*)
    integer(c_int64_t), intent(in) :: n, at
    status = -plfs_bad_number
    if (n >= 0 .and. at >= 0) status = c_pwrite(file%handle, bytes, int(n, c_size_t), at)
  end function

  ! Reads at most n bytes into the array, which may be of any type.
  integer(c_int64_t) function plfs_pread(file, into, n, at) result(status)
    type(plfs_file), intent(in) :: file
    type(*) :: into(*)
    integer(c_int64_t), intent(in) :: n, at
    status = -plfs_bad_number
    if (n >= 0 .and. at >= 0) status = c_pread(file%handle, into, int(n, c_size_t), at)
  end function

  integer(c_int64_t) function plfs_stamp(file) result(stamp)
    type(plfs_file), intent(in) :: file
    stamp = c_stamp(file%handle)
  end function

  integer(c_int64_t) function plfs_sync(file) result(landed)
    type(plfs_file), intent(in) :: file
    landed = c_sync(file%handle)
  end function

  integer(c_int64_t) function plfs_close(file) result(landed)
    type(plfs_file), intent(inout) :: file
    landed = c_close(file%handle)
    file%handle = c_null_ptr
  end function

  integer function plfs_refresh(file) result(status)
    type(plfs_file), intent(in) :: file
    status = c_refresh(file%handle)
  end function

  integer(c_int64_t) function plfs_size(file) result(length)
    type(plfs_file), intent(in) :: file
    length = c_size(file%handle)
  end function

  integer(c_int64_t) function plfs_pieces(file) result(pieces)
    type(plfs_file), intent(in) :: file
    pieces = c_pieces(file%handle)
  end function

  integer(c_int64_t) function plfs_stat(fs, name) result(length)
    type(plfs_fs), intent(in) :: fs
    character(*), intent(in) :: name
    length = c_stat(fs%handle, ended(name))
  end function

  integer function plfs_trunc(fs, name, length) result(status)
    type(plfs_fs), intent(in) :: fs
    character(*), intent(in) :: name
    integer(c_int64_t), intent(in) :: length
    status = -plfs_bad_number
    if (length >= 0) status = c_trunc(fs%handle, ended(name), length)
  end function

  integer function plfs_rename(fs, name, to) result(status)
    type(plfs_fs), intent(in) :: fs
    character(*), intent(in) :: name, to
    status = c_rename(fs%handle, ended(name), ended(to))
  end function

  integer function plfs_flatten(fs, name) result(status)
    type(plfs_fs), intent(in) :: fs
    character(*), intent(in) :: name
    status = c_flatten(fs%handle, ended(name))
  end function

  integer(c_int64_t) function plfs_recover(fs, name) result(buried)
    type(plfs_fs), intent(in) :: fs
    character(*), intent(in) :: name
    buried = c_recover(fs%handle, ended(name))
  end function

  ! The error in words, of a number that a call answered.
  function plfs_strerror(error) result(words)
    integer, intent(in) :: error
    character(len=:), allocatable :: words
    type(c_ptr) :: text
    character(kind=c_char), pointer :: letters(:)
    integer :: k
    text = c_strerror(int(error, c_int))
    call c_f_pointer(text, letters, [c_strlen(text)])
    allocate (character(len=size(letters)) :: words)
    do k = 1, size(letters)
      words(k:k) = letters(k)
    end do
  end function
end module
