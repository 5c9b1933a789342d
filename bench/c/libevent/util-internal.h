/* Stands for libevent's own header of this name; its min heap needs nothing of it. */
