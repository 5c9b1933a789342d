/* Stands for a header that libevent's configure would write; its min heap needs nothing of it. */
