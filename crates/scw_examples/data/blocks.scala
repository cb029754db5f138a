object Main {
  def main(args: Array[String]): Unit = {
    val x: Int = { val y: Int = 20; ({ val z: Int = 1; y + z }) * 2 };
    var sum: Int = x;
    { val part: Int = 100; sum = sum + part };
    println(sum);
    val nothing: Unit = println("printed where it is defined");
    println(nothing);
    println(if (sum > 100) { "more"; "than a hundred" } else "less")
  }
}
