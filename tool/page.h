/* What every page has: its look and what it does when it is clicked, as a browser takes them (page_text.c). */
#ifndef PAGE_H
#define PAGE_H

extern const char page_style[], page_script[];

#endif
