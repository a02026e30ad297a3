'use strict';
// What the wheel, the pointers and the keys do to a picture. The wheel scrolls the page, and zooms only with Ctrl; a
// pinch on a touchpad counts as that. A finger that moves up or down scrolls the page; sideways it pans.

class PictureInput {
  constructor(view) {
    this.view = view;
    this.pointers = new Map();
    this.moved = false;
    const { frame, buttons } = view;
    const handlers = {
      pointerdown: (event) => this.down(event),
      pointermove: (event) => this.move(event),
      pointerup: (event) => this.up(event),
      pointercancel: (event) => this.pointers.delete(event.pointerId),
      dblclick: () => view.show(0, view.last),
      keydown: (event) => this.key(event),
    };
    for (const [name, handler] of Object.entries(handlers)) frame.addEventListener(name, handler);
    frame.addEventListener('wheel', (event) => this.wheel(event), { passive: false });
    buttons.in.onclick = () => view.zoom(0.5, view.middle());
    buttons.out.onclick = () => view.zoom(2, view.middle());
    buttons.all.onclick = () => view.show(0, view.last);
    if (buttons.differ) buttons.differ.onclick = () => view.goToDifference();
    new ResizeObserver(() => {
      if (frame.clientWidth !== view.drawnWidth) view.draw();
    }).observe(frame);
  }

  placeOf(event) {
    const box = this.view.svg.getBoundingClientRect();
    return { x: event.clientX - box.left, y: event.clientY - box.top };
  }

  wheel(event) {
    const { view } = this;
    if (event.ctrlKey) {
      event.preventDefault();
      view.zoom(Math.exp(Math.max(-1, Math.min(1, event.deltaY / 300))), view.axis.cycleAt(this.placeOf(event).x));
    } else if (event.shiftKey || event.deltaX) {
      event.preventDefault();
      view.pan(event.deltaX || event.deltaY);
    }
  }

  down(event) {
    this.pointers.set(event.pointerId, this.placeOf(event));
    this.moved = this.pointers.size > 1;
    this.view.frame.setPointerCapture(event.pointerId);
  }

  move(event) {
    const place = this.placeOf(event);
    const before = this.pointers.get(event.pointerId);
    if (!before) {
      this.view.selectAt(place);
      return;
    }
    if (!this.moved && Math.abs(place.x - before.x) < 4) return;
    this.moved = true;
    const other = [...this.pointers].find(([id]) => id !== event.pointerId);
    if (other) {
      const far = (it) => Math.max(10, Math.abs(it.x - other[1].x));
      this.view.zoom(far(before) / far(place), this.view.axis.cycleAt(other[1].x));
    } else {
      this.view.pan(before.x - place.x);
    }
    this.pointers.set(event.pointerId, place);
  }

  // a pointer that went down and up at one place selects what is there
  up(event) {
    if (this.pointers.delete(event.pointerId) && !this.moved) this.view.selectAt(this.placeOf(event));
  }

  key(event) {
    const { view } = this;
    const width = view.axis.right - view.axis.left;
    const actions = {
      ArrowLeft: () => view.stepTo(-1), ArrowRight: () => view.stepTo(1),
      Home: () => view.goToEnd(1), End: () => view.goToEnd(-1),
      PageUp: () => view.pan(-width / 2), PageDown: () => view.pan(width / 2),
      '+': () => view.zoom(0.5, view.middle()), '=': () => view.zoom(0.5, view.middle()),
      '-': () => view.zoom(2, view.middle()), 0: () => view.show(0, view.last), d: () => view.goToDifference(),
    };
    if (!actions[event.key] || event.ctrlKey || event.altKey || event.metaKey) return;
    event.preventDefault();
    actions[event.key]();
  }
}
