// The same drag by a program of X: after each step the server's expose events are read and painted, and the part of the screen
// that changed may be read, as a program reads it that shows it elsewhere.
#include "drag.h"
#include <X11/Xlib.h>
#include <X11/Xutil.h>

enum { NOTHING, READ };

static Display *display;
static Window windows[WINDOWS];
static GC pens[WINDOWS];
static unsigned long exposed;

// A pen is the pixel's value; a window keeps its pixels where it is moved, and none is filled by the server.
static void open_windows(void)
{
    XSetWindowAttributes wanted = {.override_redirect = True, .event_mask = ExposureMask, .background_pixmap = None,
                                   .bit_gravity = NorthWestGravity};
    unsigned long which = CWOverrideRedirect | CWEventMask | CWBackPixmap | CWBitGravity;
    Window root = DefaultRootWindow(display);
    XSetWindowBackground(display, root, 0);
    XClearWindow(display, root);
    for (int i = WINDOWS; i-- > 0;) {
        windows[i] = XCreateWindow(display, root, places[i][0], places[i][1], W, H, 0, CopyFromParent, InputOutput,
                                   CopyFromParent, which, &wanted);
        pens[i] = XCreateGC(display, windows[i], 0, NULL);
        XSetForeground(display, pens[i], (unsigned long)i);
        XMapWindow(display, windows[i]);
    }
    for (int i = 1; i < WINDOWS; i++) {
        XFillRectangle(display, windows[i], pens[i], 0, 0, W, H);
    }
    for (int i = 0; i < BARS; i++) {
        XSetForeground(display, pens[0], (unsigned long)(FIRST_BAR + i));
        XFillRectangle(display, windows[0], pens[0], i * W / BARS, 0, W / BARS, H);
    }
    XSync(display, True);
}

static void make(int x, int y, int dx, int dy, int read)
{
    struct part part = changed(x, y, dx, dy);
    XMoveWindow(display, windows[0], x + dx, y + dy);
    XSync(display, False);
    while (XPending(display)) {
        XEvent event;
        XNextEvent(display, &event);
        for (int i = 1; i < WINDOWS; i++) {
            if (event.type == Expose && event.xexpose.window == windows[i]) {
                XFillRectangle(display, windows[i], pens[i], event.xexpose.x, event.xexpose.y, (unsigned)event.xexpose.width,
                               (unsigned)event.xexpose.height);
                exposed++;
            }
        }
    }
    if (read == READ) {
        XDestroyImage(XGetImage(display, DefaultRootWindow(display), part.x, part.y, (unsigned)part.w, (unsigned)part.h,
                                AllPlanes, ZPixmap));
    } else {
        XSync(display, False);
    }
}

static void print_screen(void)
{
    XImage *image = XGetImage(display, DefaultRootWindow(display), 0, 0, WIDTH, HEIGHT, AllPlanes, ZPixmap);
    uint32_t sum = 0;
    for (int y = 0; y < HEIGHT; y++) {
        sum = digest(sum, (const uint8_t *)image->data + (size_t)y * (size_t)image->bytes_per_line, WIDTH);
    }
    printf("screen %u\n", (unsigned)sum);
    XDestroyImage(image);
}

int main(void)
{
    display = XOpenDisplay(NULL);
    if (!display) {
        fprintf(stderr, "drag_x: no display\n");
        return 1;
    }
    open_windows();
    for (int i = 0; i < STEPS; i++) {
        make(places[0][0] + DX * i, places[0][1] + DY * i, DX, DY, NOTHING);
    }
    printf("rectangles %lu\n", exposed);
    print_screen();
    make(places[0][0] + DX * STEPS, places[0][1] + DY * STEPS, -DX * STEPS, -DY * STEPS, NOTHING);
    print_drag("Xvfb, moved and painted", make, NOTHING);
    print_drag("Xvfb, and the changed part read", make, READ);
    XCloseDisplay(display);
    return 0;
}
