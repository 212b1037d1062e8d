// The pointer over the lanes: a click goes to a place, and a drag scrolls. Over the ruler, or with
// Shift, a drag marks a range. The wheel zooms over the ruler, or with Ctrl.

// The least distance of a drag, in pixels.
const LEAST_DRAG = 4;
const WHEEL_ZOOM = 1.0015;

class Dragging {
  constructor(viewer, canvas, lanes, over = viewer.timeline) {
    this.viewer = viewer;
    this.timeline = viewer.timeline;
    // The lanes that clicks are for: these, or those of the other run.
    this.over = over;
    this.canvas = canvas;
    this.from = null;
    canvas.addEventListener("pointerdown", (event) => this.begin(event));
    canvas.addEventListener("pointermove", (event) => this.move(event));
    canvas.addEventListener("pointerup", (event) => this.end(event));
    canvas.addEventListener("pointercancel", () => (this.from = null));
    lanes.addEventListener("wheel", (event) => this.wheel(event), { passive: false });
  }

  begin({ offsetX, offsetY, button, shiftKey, pointerId }) {
    if (button !== 0) return;
    const place = this.timeline.placeAt(offsetX);
    this.from = { x: offsetX, y: offsetY, place, marks: shiftKey || offsetY < RULER };
    this.isDrag = false;
    this.canvas.setPointerCapture(pointerId);
  }

  move({ offsetX }) {
    const { from, timeline, viewer } = this;
    if (!from || from.x < GUTTER) return;
    this.isDrag = this.isDrag || Math.abs(offsetX - from.x) >= LEAST_DRAG;
    if (!this.isDrag) return;
    if (from.marks) viewer.mark(from.place, timeline.placeAt(Math.max(GUTTER, offsetX)));
    else timeline.pan(from.place - timeline.placeAt(offsetX));
    viewer.again();
  }

  end({ offsetX, offsetY }) {
    const { from, timeline, viewer } = this;
    this.from = null;
    if (!from || this.isDrag) return;
    if (offsetX > GUTTER) viewer.go(timeline.placeAt(offsetX));
    else {
      const lane = this.over.laneAt(offsetY);
      if (lane) viewer.lanePanel.click(lane);
    }
  }

  wheel(event) {
    const { timeline, viewer } = this;
    const { deltaX, deltaY, shiftKey, ctrlKey, offsetX, offsetY } = event;
    const isOver = event.target === this.canvas;
    const sideways = deltaX || (shiftKey ? deltaY : 0);
    if (ctrlKey || (isOver && offsetY < RULER && !sideways)) {
      timeline.zoomAt(timeline.scale * WHEEL_ZOOM ** -deltaY, isOver ? offsetX : GUTTER);
    } else if (sideways) timeline.pan(sideways / timeline.scale);
    else return;
    event.preventDefault();
    viewer.again();
  }
}
