"""What the C library (glibc 2.35 or later) can be told of how it gets memory, by a word of the
environment."""

TOLD = "GLIBC_TUNABLES"
# To grow its heap by 16 MiB at a time and to keep there what is given back, but for pieces of 4 MiB
# and more.
KEPT_HEAP = ":".join(
    (
        "glibc.malloc.top_pad=16777216",
        "glibc.malloc.mmap_threshold=4194304",
        "glibc.malloc.trim_threshold=268435456",
    )
)
# To ask the system for large pages.
LARGE_PAGES = "glibc.malloc.hugetlb=1"
