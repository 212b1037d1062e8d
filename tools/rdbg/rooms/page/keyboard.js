// The switch for the keys that move the target or the wheel. It is off at first, because a text that
// somebody types while no field has the focus must not move everybody's target.
class KeyboardControl {
  constructor(button) {
    this.button = button;
    button.addEventListener("click", () => this.set(!this.isOn));
    this.set(false);
  }

  set(isOn) {
    this.isOn = isOn;
    this.button.setAttribute("aria-pressed", String(isOn));
    this.button.querySelector(".switch").textContent = isOn ? "on" : "off";
  }

  // Returns the same keys, which do nothing while the switch is off.
  guard(keys) {
    const guarded = ([key, act]) => [key, () => this.isOn && act()];
    return Object.fromEntries(Object.entries(keys).map(guarded));
  }
}
